# Writes ten million bytes of INTCODE text, as `print` would: items of all kinds, a `Z` after each thousand.
import random

random.seed(1)


def number():
    return random.choice((random.randrange(10), random.randrange(512), random.randrange(65536)))


def item():
    kind = random.randrange(12)
    if kind == 0:
        return str(random.randrange(65536))
    if kind == 1:
        return "D%d" % number()
    if kind == 2:
        return "C%d" % random.randrange(256)
    if kind == 3:
        return "G%dL%d" % (random.randrange(512), random.randrange(65536))
    if kind < 6:
        return random.choice("JTFL") + "L%d" % random.randrange(65536)
    return random.choice("LSAJTFKX") + random.choice(("", "I")) + random.choice(("", "P", "G")) + str(number())


size, count, lines = 0, 0, []
while size < 10_000_000:
    line = "Z\n" if count % 1000 == 999 else item() + "\n"
    count += 1
    size += len(line)
    lines.append(line)
lines.append("Z\n")
print("".join(lines), end="")
