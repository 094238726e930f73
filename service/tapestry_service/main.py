"""The words of tapestryd's command line."""

from __future__ import annotations

import argparse
import errno
import os
import sys
import time
from typing import List, Optional, Union

from .calls import Calls
from .daemon import Daemon, Paths, program_words
from .decode import decoded_or_raw
from .feeder import Feeder, Feeding, putter
from .log import ERROR, advice, say
from .pauses import Pause
from .rules import Rules, WrongRule, read_rules
from .shard import Shard
from .shared_log import SharedLog, where

#: The statuses beside 0, for an orderly end, and 1, for one after which the store is two files.
WRONG_WORDS = 2


def _parser() -> argparse.ArgumentParser:
    parser = argparse.ArgumentParser(
        prog="tapestryd",
        description="Holds one session of the mail filter: takes mail from a spool, serves users at a socket, runs due queries and"
        " delivers what they gave.",
        epilog="TAPESTRY of the environment names the filter's program. SIGHUP reads RULES again, SIGTERM ends in order.",
    )
    parser.add_argument("--store", metavar="FILE", help="the store of the filter")
    parser.add_argument("--spool", required=True, metavar="DIR", help="a maildir (tmp, new): whoever delivers puts one file a message")
    parser.add_argument("--socket", metavar="PATH", help="the Unix socket at which users speak the script language")
    parser.add_argument("--rules", metavar="FILE", help="who speaks as whom, what runs, and where documents go")
    parser.add_argument("--decode", action="store_true", help="store the decoded form of the spool's messages, without attachments")
    parser.add_argument(
        "--log",
        metavar="URL",
        help="a log that this store and those of other shards follow: redis://HOST:PORT/DB, unix://SOCKET?db=DB, or a file that has the"
        " URL; with --spool alone the spool is put into it, and nothing else is done",
    )
    parser.add_argument("--users", metavar="LIST", help="the users of this shard: names with commas between, or a file of them")
    return parser


def _check(given: argparse.Namespace) -> Optional[str]:
    """What is wrong with the words, or None."""
    here = {name: getattr(given, name) is not None for name in ("store", "socket", "rules", "users")}
    if given.log is None:
        lacking = [name for name in ("store", "socket", "rules") if not here[name]]
        if here["users"]:
            return "--users is for a shard, which has --log"
    elif not any(here.values()):
        return None
    else:
        lacking = [name for name in here if not here[name]]
    return f"a service needs --{lacking[0]}" + (", or --log and --spool alone" if given.log else "") if lacking else None


def _log_of(given: str) -> SharedLog:
    """The log of the word after --log. Raises ImportError, ValueError or OSError."""
    if "://" not in given:
        with open(given, encoding="utf-8") as file:
            given = file.read().strip()
    return SharedLog(given)


def main(words: Optional[List[str]] = None) -> int:
    """Runs the service; returns its status."""
    parser = _parser()
    given = parser.parse_args(words)
    wrong = _check(given)
    if wrong is not None:
        parser.error(wrong)
    top = os.path.dirname(os.path.dirname(os.path.dirname(os.path.abspath(__file__))))
    program = program_words(top, os.environ.get("TAPESTRY"))
    if program is None and given.store is not None:
        say("there is no program: TAPESTRY names it, or `tools/build.py program tapestry` proves and builds it", ERROR)
        return WRONG_WORDS
    try:
        rules = None if given.store is None else read_rules(given.rules, given.users)
    except (WrongRule, OSError) as why:
        say(str(why), ERROR)
        return WRONG_WORDS
    pause = Pause()
    while True:
        try:
            service = _service(given, program or [], rules)
            break
        except ImportError:
            say("python3-redis is missing, which --log needs: apt install python3-redis", ERROR)
            return WRONG_WORDS
        except ValueError as why:
            say(f"--log {where(given.log)}: {why}", ERROR)
            return WRONG_WORDS
        except BlockingIOError:
            say(f"another service has the spool {given.spool}: end that one first", ERROR)
            return WRONG_WORDS
        except OSError as error:
            if error.errno not in (errno.ENOSPC, errno.EDQUOT):
                say(advice(error, given.socket or given.spool), ERROR)
                return WRONG_WORDS
            say(f"{advice(error, given.socket or given.spool)}; trying again in {pause.grow():.0f} seconds", ERROR)
            time.sleep(pause.length)
    return service.run()


def _service(given: argparse.Namespace, program: List[str], rules: Optional[Rules]) -> Union[Daemon, Feeding]:
    decode = decoded_or_raw if given.decode else None
    log = None if given.log is None else _log_of(given.log)
    if rules is None:
        assert log is not None
        return Feeding(log, given.spool, decode)
    paths = Paths(os.path.abspath(given.store), given.spool, given.socket, given.rules, given.users)
    shard = None
    if log is not None:
        calls = Calls()
        put = putter(_log_of(given.log), calls)
        shard = Shard(log, put, Feeder(given.spool, decode, put, log.where), calls)
    return Daemon(paths, program, rules, decode=decode, shard=shard)


if __name__ == "__main__":
    sys.exit(main())
