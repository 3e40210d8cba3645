def number(n):
    if n < 2:
        return n
    return number(n - 1) + number(n - 2)


for _ in range(10):
    result = number(20)
print(result)
