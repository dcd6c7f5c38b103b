#!/usr/bin/env python3
"""Times a night of many sheets with eight cards: 32 steps of 16 by 16 each, in 8,192 bytes of memory.

    night_speed.py TOOL FOLDER SHEETS

FOLDER is made if it is not there. Cards 0 to 5 agree, card 6 differs on each hundredth sheet, and card 7 on
every sheet, with registers.
"""
import os
import resource
import subprocess
import sys
import time

CARDS = 8
DISTINCT = 100  # sheets; the others are copies with other names
MEMORY = 8192


def sheet_text(number):
    """A fill, then loads with each clamp mode, multiply-adds, transposes and stores, in turn."""
    lines = ["edition 1"]
    for mode in ("Constant", "ClampToEdge", "Repeat", "MirrorRepeat"):
        shift = number % 5 - 2
        lines += [f"layout {mode} value {number}", f"  dim size 14 stride 16 offset {shift} span 16",
                  f"  dim size 14 stride 1 offset {shift} span 16"]
    lines += ["fill r0 16x16 u32 1", "fill r1 16x16 u32 2"]
    for i in range(6):
        layout = (number + i) % 4
        lines += [f"load r0 L{layout} base {1024 * (i % 2)}", "multiply-add r2 A r0 B r1 C r0", "transpose r3 of r2",
                  f"load r1 object r3 L{(layout + 1) % 4} base {16 * (number % 8)}",
                  f"store r3 L{layout} base {1024 * (2 + i)}"]
    return "\n".join(layout_names(lines)) + "\n"


def layout_names(lines):
    count = 0
    for line in lines:
        if line.startswith("layout "):
            line = line.replace("layout ", f"layout L{count} ")
            count += 1
        yield line


def make(tool, folder, sheets):
    os.makedirs(folder)

    def path(name):
        return os.path.join(folder, name)

    def write(name, content):
        with open(path(name), "wb") as file:
            file.write(content)

    made = []
    for number in range(min(DISTINCT, sheets)):
        memory = bytes((number * 31 + i * 7 + i // 256) % 256 for i in range(MEMORY))
        with open(path("text"), "w") as file:
            file.write(sheet_text(number))
        write("memory", memory)
        subprocess.run([tool, "asm", path("text"), "-o", path("sheet")], check=True)
        subprocess.run([tool, "run", path("sheet"), path("memory"), "-o", path("after"), "--registers",
                        path("registers")], check=True, stdout=subprocess.DEVNULL)
        made.append([open(path(name), "rb").read() for name in ("sheet", "memory", "after", "registers")])
    for name in ("text", "sheet", "memory", "after", "registers"):
        os.remove(path(name))
    for number in range(sheets):
        sheet, memory, after, registers = made[number % len(made)]
        wrong = bytearray(after)
        wrong[2 * 1024 + 4 * (number % 200)] ^= 0x55
        write(f"s{number:06}.sheet", sheet)
        write(f"s{number:06}.memory", memory)
        for card in range(CARDS):
            differs = card == 7 or (card == 6 and number % 100 == 0)
            write(f"s{number:06}.card{card}.after", wrong if differs else after)
        write(f"s{number:06}.card7.registers", registers)


def most_memory(pid):
    """The most memory that a process has had so far, in MB; 0 if it has ended."""
    try:
        with open(f"/proc/{pid}/status") as file:
            return max((int(line.split()[1]) / 1024 for line in file if line.startswith("VmHWM:")), default=0)
    except OSError:
        return 0


def processor_time():
    usage = resource.getrusage(resource.RUSAGE_CHILDREN)
    return usage.ru_utime + usage.ru_stime


def measure(what, words):
    start, used = time.monotonic(), processor_time()
    process = subprocess.Popen(words, stdout=subprocess.DEVNULL)
    most = 0
    while process.poll() is None:
        most = max(most, most_memory(process.pid))
        time.sleep(0.01)
    took, used = time.monotonic() - start, processor_time() - used
    print(f"{what}: {took:.1f} s, of the processor {used:.1f} s; {most:.1f} MB at most; exit status "
          f"{process.returncode}", flush=True)


def main(tool, folder, sheets):
    if not os.path.isdir(folder):
        make(tool, folder, int(sheets))
    night = [tool, "night", folder]
    measure("text, one process", night)
    measure("text, two processes", night + ["-j", "2"])
    measure("JSON and HTML, two processes",
            night + ["-j", "2", "--json", "-o", folder + ".json", "--html", folder + ".html"])
    measure("merged to CSV and HTML", [tool, "night", "--merge", folder + ".json", "--csv", "-o", folder + ".csv",
                                       "--html", folder + ".merged.html"])


if __name__ == "__main__":
    if len(sys.argv) != 4:
        sys.exit("usage: night_speed.py TOOL FOLDER SHEETS")
    main(*sys.argv[1:])
