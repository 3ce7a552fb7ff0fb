def main():
    i = 0
    s = 0
    while i < 3999990:
        i = i + 1
        s = (s + i * 3) & 0xffffffff
    print(s)


main()
