def f(x):
    return x + 1


def main():
    i = 0
    j = 0
    while j < 1300000:
        i = f(j)
        j = i
    print(i)


main()
