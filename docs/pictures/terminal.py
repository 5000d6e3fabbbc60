"""Sessions in a terminal: run by a shell, kept in the format of asciinema, and drawn as an SVG that moves by itself.

A session is a text with one line for each thing that happens:

    # TEXT      is shown
    $ COMMAND   is shown and run, and so is what it prints. A line `> TEXT` goes on with it
    ? COMMAND   likewise, of a command that fails
    . COMMAND   is run and not shown: it waits, or cleans up
"""
import collections
import html
import json
import os
import re
import subprocess

COLUMNS, ROWS = 98, 26
# In seconds: before a comment and after it, for each letter that is typed, before what a command prints, for each line
# of that, and at the end.
BEFORE, AFTER, LETTER, THINKS, LINE, END = 0.4, 1.8, 0.02, 0.4, 0.05, 8
# What a comment, a prompt and a command look like in a terminal, and in the picture.
LOOKS = {"2": "comment", "32": "prompt", "1": "command"}
WIDTH, HIGH, LEFT, TOP, FONT = 830, 18, 16, 44, 13.4

REPOSITORY = os.path.dirname(os.path.dirname(os.path.dirname(os.path.realpath(__file__))))

Step = collections.namedtuple("Step", "kind lines")


def steps(session):
    found = []
    for line in session.splitlines():
        if line.startswith("> "):
            found[-1].lines.append(line[2:])
        else:
            found.append(Step(line[0], [line[2:]]))
    return found


def command(step):
    text = "\n".join(step.lines)
    return f"if {text}; then exit 9; fi" if step.kind == "?" else text


def outputs(session, folder, programs, port="8022"):
    """Runs the commands of a session by one shell, in a folder that has the examples, and gives what each has printed.
    The programs are files. In the place of the port that the session names, an office may listen at another."""
    tools, commands = os.path.join(folder, "tools"), [command(it) for it in steps(session) if it.kind != "#"]
    os.mkdir(tools)
    for it in programs:
        os.symlink(os.path.abspath(it), os.path.join(tools, os.path.basename(it)))
    path = [tools, f"{REPOSITORY}/examples", f"{REPOSITORY}/programs/station", os.environ["PATH"]]
    script = "set -eu\numask 022\nexec 2>&1\ntrap 'kill $(jobs -p) || true' EXIT\n" + "".join(
        f"{it}\nprintf '\\001'\n" for it in commands)
    done = subprocess.run(["bash", "-c", script.replace("8022", port)], cwd=folder, timeout=200, check=False,
                          env=os.environ | {"PATH": ":".join(path), "LC_ALL": "C", "TZ": "UTC"},
                          stdin=subprocess.DEVNULL, stdout=subprocess.PIPE)
    printed = done.stdout.decode().replace("\r\n", "\n").replace(port, "8022").split("\1")
    if len(printed) <= len(commands):
        raise RuntimeError(f"{commands[len(printed) - 1]}\n{printed[-1]}")
    return printed[:-1]


def styled(look, text):
    return f"\x1b[{look}m{text}\x1b[0m"


def events(session, printed):
    """What a terminal shows, each with its time: lines that are typed, and lines that are printed."""
    found, now, printed = [], 0.0, iter(printed)
    for step in steps(session):
        if step.kind == "#":
            found.append((now + BEFORE, styled(2, f"# {step.lines[0]}")))
            now += BEFORE + AFTER
            continue
        output = next(printed).splitlines()
        if step.kind == ".":
            continue
        for prompt, line in zip("$" + ">" * len(step.lines), step.lines):
            now += BEFORE + LETTER * len(line)
            found.append((now, f"{styled(32, prompt)} {styled(1, line)}"))
        now += THINKS
        for line in output:
            now += LINE
            found.append((now, line))
        now += THINKS * bool(output)
    return found


def cast(session, printed):
    """A recording in the second format of asciinema."""
    head = {"version": 2, "width": COLUMNS, "height": ROWS, "title": "The first minutes with Vethlumi"}
    lines = [json.dumps(head)] + [json.dumps([round(now, 2), "o", f"{text}\r\n"]) for now, text in
                                  events(session, printed)]
    return "".join(f"{it}\n" for it in lines)


def shown(recording):
    """The lines of a recording, each with its time. What a terminal would wrap is wrapped."""
    for line in recording.splitlines()[1:]:
        now, _, text = json.loads(line)
        parts = spans(text.rstrip("\r\n"))
        if sum(len(it) for _, it in parts) <= COLUMNS:
            yield now, parts
        else:
            plain = "".join(it for _, it in parts)
            yield from ((now, [("", plain[at:at + COLUMNS])]) for at in range(0, len(plain), COLUMNS))


def spans(text):
    """The parts of a line, each with its look."""
    pieces = re.split(r"\x1b\[(\d+)m", text)
    looks = ["", *(LOOKS.get(it, "") for it in pieces[1::2])]
    return [(look, it) for look, it in zip(looks, pieces[0::2]) if it]


def text_of(recording):
    """What a recording shows, without its times."""
    return "".join(f"{''.join(it for _, it in parts)}\n" for _, parts in shown(recording))


# ---- the picture

STYLE = """text{font:%gpx ui-monospace,SFMono-Regular,Menlo,Consolas,'DejaVu Sans Mono',monospace;fill:#d4dae0;\
white-space:pre}
.comment{fill:#8fb7e8}.prompt{fill:#5fd27a}.command{fill:#ffffff;font-weight:600}
.line,.roll{animation-duration:%.2fs;animation-timing-function:step-end;animation-iteration-count:infinite}
@media (prefers-reduced-motion:reduce){.line,.roll{animation:none!important}}
"""


def picture(recording):
    """An SVG without scripts: each line appears at its time, and all begins again at the end."""
    lines = [*shown(recording)]
    whole = lines[-1][0] + END
    height = TOP + HIGH * ROWS + 8
    rules, drawn, rolled = [STYLE % (FONT, whole)], [], []
    for place, (now, parts) in enumerate(lines):
        share = f"{100 * now / whole:.2f}%"
        rules.append(f"@keyframes l{place}{{0%{{opacity:0}}{share},100%{{opacity:1}}}}\n")
        drawn.append(f'<text class="line" style="animation-name:l{place}" x="{LEFT}" y="{TOP + HIGH * place + 14}">'
                     f'{"".join(tspan(*it) for it in parts)}</text>\n')
        if place >= ROWS:
            rolled.append(f"{share}{{transform:translateY({-HIGH * (place + 1 - ROWS)}px)}}")
    last = f"translateY({-HIGH * max(0, len(lines) - ROWS)}px)"
    rules.append(f"@keyframes roll{{0%{{transform:none}}{''.join(rolled)}100%{{transform:{last}}}}}\n")
    return "".join([
        f'<svg xmlns="http://www.w3.org/2000/svg" viewBox="0 0 {WIDTH} {height}" width="{WIDTH}" height="{height}" '
        'xml:space="preserve">\n<style>', *rules, "</style>\n",
        f'<rect width="{WIDTH}" height="{height}" rx="8" fill="#161b22"/>\n',
        *(f'<circle cx="{22 + 20 * it}" cy="20" r="6" fill="{colour}"/>'
          for it, colour in enumerate(("#ff5f57", "#febc2e", "#28c840"))),
        f'\n<svg y="{TOP}" width="{WIDTH}" height="{HIGH * ROWS + 4}" '
        f'viewBox="0 {TOP} {WIDTH} {HIGH * ROWS + 4}">\n'
        f'<g class="roll" style="animation-name:roll;transform:{last}">\n', *drawn, "</g>\n</svg>\n</svg>\n"])


def tspan(look, text):
    escaped = html.escape(text, quote=False)
    return f'<tspan class="{look}">{escaped}</tspan>' if look else f"<tspan>{escaped}</tspan>"
