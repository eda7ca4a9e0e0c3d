print(1)
print(20)
print(300)
