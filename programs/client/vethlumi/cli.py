"""The command line's frame: settings, statuses, waiting, questions and files. The commands are in the other modules."""
import contextlib
import os
import sys
import time

import click
from rich.console import Console
from rich.text import Text

from vethlumi import __version__, formats
from vethlumi.formats import BadFormat
from vethlumi.office import NoAnswer, Office, trying
from vethlumi.outbox import Outbox
from vethlumi.printing import plain, say
from vethlumi.refusals import Refused
from vethlumi.settings import BAD_WORDS, FILES, NO_ANSWER, REFUSED, BadSettings, read_settings, state_folder
from vethlumi_common import files, helps


class Job:
    """What a command works with: the settings, and the office and the outbox once they are asked for."""

    def __init__(self, settings, wait):
        self.settings, self.ends, self.made = settings, time.monotonic() + wait, None
        self.outbox = Outbox(state_folder())

    @property
    def office(self):
        self.made = self.made or Office(self.settings, self.ends)
        return self.made

    def send(self, message, is_reply=lambda reply: True):
        """Sends a message, and the same one again until an answer comes or the wait is over. It stays in the outbox
        until the reply was put to use. A refusal by the office means that it was never accepted. Returns what is kept,
        and the reply as words."""
        kept = self.outbox.keep(message)
        try:
            with waiting("waiting for the office's answer") as tell:
                reply = trying(lambda: self.office.post(kept), self.ends, tell)
            if not is_reply(reply):
                raise NoAnswer(f"unexpected answer from the office: {' '.join(reply)[:200]}")
        except Refused as refused:
            if refused.number:
                kept.drop()
            raise
        except NoAnswer as fault:
            raise NoAnswer(f"{fault}\n  the message is kept: run this again, or vethlumi outbox --send") from None
        return kept, reply

    def policy(self):
        """The departments of the settings' policy; none if no policy is set."""
        file = self.settings.file("policy")
        return read_departments(file) if file else {}


@contextlib.contextmanager
def waiting(what):
    """Shows that something is waited for, and gives a function that tells why."""
    console = Console(stderr=True, highlight=False, markup=False)
    if console.is_terminal:
        # A plain string would be taken for markup: links and colours, or a mistake in them.
        with console.status(Text(what)) as shown:
            yield lambda why: shown.update(Text(plain(f"{what}: {why.partition(chr(10))[0][:100]}")))
        return
    told = set()

    def tell(why):
        if why not in told:
            told.add(why)
            say(f"{what}: {why}")
    yield tell


# The commands of a help that fits a screen, in the order in which they are met. The manual page has all names.
SHOWN = {
    "Certificates": ("request", "get", "show", "certs", "renew", "revoke", "krl", "workload", "enrol", "renew-host"),
    "Sign-on": ("login", "logout", "people", "leave"),
    "Office": ("status", "department", "rollover", "signers", "metrics", "events", "audit", "outbox", "doctor"),
}
NOTES = """A message that got no answer is kept on disk: run the same command again, and nothing happens twice.

A TIME is for example 90 (seconds), 15m, 8h, 30d or 4w.

Exit status: 0 success, 1 refused, 2 bad arguments or files, 3 no answer (the message is kept), 4 not signed yet.
"""


class Group(click.Group):
    """Ends with the status that belongs to what went wrong. Its help is that of a screen, or of the manual page."""

    def format_commands(self, context, formatter):
        if os.environ.get(helps.FOR_MANUAL):
            return super().format_commands(context, formatter)
        widest = max(map(len, self.commands))
        for title, names in SHOWN.items():
            with formatter.section(title):
                formatter.write_dl([(name.ljust(widest), self.commands[name].get_short_help_str(80)) for name in names])

    def format_epilog(self, context, formatter):
        formatter.write(f"{helps.NOTES}{NOTES}" if os.environ.get(helps.FOR_MANUAL) else "\n" + helps.where_notes_are("vethlumi"))

    def invoke(self, context):
        try:
            return super().invoke(context)
        except Refused as refused:
            status, why = REFUSED, refused
        except NoAnswer as fault:
            status, why = NO_ANSWER, f"no answer: {fault}"
        except (BadSettings, BadFormat) as fault:
            status, why = BAD_WORDS, fault
        except UnicodeDecodeError:
            status, why = BAD_WORDS, "a file isn't text"
        except BrokenPipeError:
            raise
        except KeyboardInterrupt:
            status, why = NO_ANSWER, "interrupted; a message that was sent is kept: run this again"
        except OSError as fault:
            status, why = BAD_WORDS, f"{fault.filename or 'output'}: {fault.strerror}"
        say(why)
        context.exit(status)


@click.group(cls=Group, context_settings={"help_option_names": ["-h", "--help"], "auto_envvar_prefix": "VETHLUMI"})
@click.version_option(__version__, message="vethlumi %(version)s")
@click.option("--config", metavar="FILE", help=f"the settings file [default: {' or '.join(FILES)}]")
@click.option("--office", metavar="URL", help="the front's URL: https://office.example.org:8443")
@click.option("--certificate", metavar="FILE", help="the client's key and certificate in one PEM file")
@click.option("--cacert", metavar="FILE", help="the authority that issued the front's certificate (PEM)")
@click.option("--policy", metavar="FILE", help="the departments: the policy of the CA's guard")
@click.option("--caller", metavar="NAME", help="the caller's name, if URL is an office without a front")
@click.option("--wait", metavar="TIME", default="10m", show_default=True, help="how long to wait for an answer")
@click.pass_context
def main(context, config, wait, **given):
    """Request SSH certificates from an office, revoke them, and show what it has."""
    context.obj = Job(read_settings(config, **given), formats.seconds_of(wait))


pass_job = click.make_pass_decorator(Job)
as_json = click.option("--json", "as_json", is_flag=True, help="print JSON")
without_asking = click.option("--yes", is_flag=True, help="don't ask for confirmation")


def read_text(path):
    with open(path, encoding="utf-8", newline="") as it:
        return it.read()


def read_departments(path):
    try:
        return formats.departments(read_text(path))
    except BadFormat as fault:
        raise BadFormat(f"{path}: {fault}") from None


def put_file(path, text, mode=0o644):
    """Puts a text into a file, whole or not at all."""
    if os.path.exists(path) and not os.path.isfile(path):
        raise BadFormat(f"{path} isn't a file")
    files.put(path, text if isinstance(text, bytes) else text.encode("latin-1"), mode)


def ask(question, yes):
    """Ends the command unless the person at the terminal agrees. If there is none, only --yes does."""
    if not yes and not sys.stdin.isatty():
        raise BadFormat(f"{question} Not a terminal. Pass --yes to confirm.")
    if not yes and not click.confirm(question, err=True):
        say("nothing was sent")
        sys.exit(REFUSED)


def counted(count, word):
    return f"{count} {word}{'s' * (count != 1)}"
