def sieve():
    for _ in range(10):
        count = 0
        flags = [1] * 8191
        number = 0
        while number <= 8190:
            flags[number] = 1
            number += 1
        number = 0
        while number <= 8190:
            if flags[number]:
                prime = number + number + 3
                multiple = number + prime
                while multiple <= 8190:
                    flags[multiple] = 0
                    multiple += prime
                count += 1
            number += 1
    return count


print(sieve())
