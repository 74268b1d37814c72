"""Made scripts, as docs/LANGUAGE.md has them, as lines: `made.py SEED SIZE` prints one."""

import sys


def made_lines(seed, size):
    """The line that makes the layer, and a line for each round."""
    state, first, after = seed, 0, 0

    def draw():
        nonlocal state
        state = (state * 6364136223846793005 + 1442695040888963407) % 2**64
        return state >> 32

    def place():
        return draw() >> 12

    yield "layer made points range near top"
    for _ in range(size):
        number = draw() % 10
        if number == 7:
            x, y = place(), place()
            yield f"count made {x} {y} {x + 65535} {y + 65535}"
        elif number == 8:
            yield f"near made {place()} {place()}"
        elif number == 9:
            x = place()
            yield f"top made {x} {x + 65535}"
        elif number == 5 and first != after:
            yield f"drop made {first}"
            first += 1
        elif number == 6 and first != after:
            after -= 1
            yield f"drop made {after}"
        else:
            yield f"add made {after} {place()} {place()} {draw() >> 22}"
            after += 1


def summary(lines, answers):
    """What `./livemap --make` sums up of these lines and their answers, but for costs."""
    words = [answer.split() for answer in answers]
    accepted = [line.split()[0] for line, answer in zip(lines, words) if answer == ["ok"]]
    return {
        "commands": len(lines),
        "refused": sum(answer[0] == "no" for answer in words),
        "live": accepted.count("add") - accepted.count("drop"),
        "counted": sum(int(answer[1]) for answer in words if answer[0] == "count"),
        "ids": sum(int(answer[1]) for answer in words if answer[0] in ("near", "top") and answer[1] != "none") % 2**64,
    }


if __name__ == "__main__":
    print(*made_lines(int(sys.argv[1]), int(sys.argv[2])), sep="\n")
