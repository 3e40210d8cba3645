def crc():
    table = [0] * 256
    for i in range(256):
        value = i << 8
        for _ in range(8):
            if value >> 15:
                value = ((value << 1) & 0xFFFF) ^ 0x1021
            else:
                value = (value << 1) & 0xFFFF
        table[i] = value
    text = [0] * 8192
    for i in range(8192):
        text[i] = (i * 7) & 0xFF
    value = 0xFFFF
    for _ in range(4):
        for i in range(8192):
            value = ((value << 8) & 0xFFFF) ^ table[(value >> 8) ^ text[i]]
    return value


print(crc())
