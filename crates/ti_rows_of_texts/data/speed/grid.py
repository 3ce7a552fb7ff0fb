def main():
    history = []
    a = {}
    for i in range(700):
        for j in range(700):
            a[i, j] = i * j
            history.append((0, "put", i, j))
    b = {}
    for k in a:
        b[k] = a[k]
        history.append((0, "get", k))
        history.append((0, "put", k))
    s = 0
    for k in b:
        s += b[k]
        history.append((0, "get", k))
    print(s)


main()
