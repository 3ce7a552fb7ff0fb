class C:
    __slots__ = ("v",)


def main():
    history = []
    c = C()
    c.v = 0
    i = 0
    while i < 1333000:
        history.append((0, "get", c.v))
        c.v = (c.v + i) & 0xffffffff
        history.append((0, "put", c.v))
        i = i + 1
    print(c.v)


main()
