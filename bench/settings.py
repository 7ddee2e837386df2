"""The options of the driver, and what a part gets of them."""
import argparse
import os
from dataclasses import dataclass

from .fault import Fault

PARTS = ["machine", "server", "load", "compact"]
# On a disk: a folder for temporary files is often in memory.
DEFAULT_FOLDER = os.path.join(os.environ.get("TMPDIR", "/var/tmp"), "berymohi-bench")


@dataclass(frozen=True)
class Settings:
    """What a run measures, and how."""

    parts: list[str]
    sim: str
    server: str
    folder: str
    seconds: float
    slow_ms: float
    only: list[str]
    groups: int
    write: bool

    def wants(self, row):
        """Says whether a row of this name is to be measured."""
        return not self.only or any(word in row for word in self.only)

    def pages_have_this(self):
        """Says whether the tables are those that the pages keep: whole ones."""
        return not self.only and self.groups == 4096


def parser():
    it = argparse.ArgumentParser(usage='make bench [PART ..] ARGS="OPTION .."', description="Measures the built programs.")
    it.add_argument("parts", nargs="*", metavar="PART", help=f"{', '.join(PARTS)} (default: all)")
    it.add_argument("--sim", default="crates/cg_sim/out/cg_sim", metavar="PATH", help="the script program (%(default)s)")
    it.add_argument("--server", default="crates/cg_server/out/cg_server", metavar="PATH", help="the server (%(default)s)")
    it.add_argument("--folder", default=DEFAULT_FOLDER, metavar="PATH", help="where files lie; its disk is measured")
    it.add_argument("--seconds", type=float, default=2, metavar="N", help="seconds that a row of a load counts (%(default)s)")
    it.add_argument("--slow", type=float, default=0, metavar="MS", dest="slow_ms",
                    help="of the part server alone: each sync of each server takes MS ms longer")
    it.add_argument("--only", default="", metavar="TEXT[,TEXT]",
                    help="rows whose name has one of these: 'commits 64x16', 'beats 1x16', '8 members', '64 offsets', "
                         "'200 segments'")
    it.add_argument("--groups", type=int, default=4096, metavar="N", help="groups of machine, for a quick look (%(default)s)")
    it.add_argument("--write", action="store_true", help="replaces the tables of bench/*.md by those of this run")
    return it


def read(words):
    """Reads the command line. Ends with status 2 where it is not understood, or a program is missing."""
    options = vars(parser().parse_args(words))
    unknown = [part for part in options["parts"] if part not in PARTS]
    if unknown:
        raise Fault(f"there is no part {unknown[0]}: the parts are {', '.join(PARTS)}")
    if options["slow_ms"] and options["parts"] not in ([], ["server"]):
        raise Fault("--slow is for the part server alone")
    options["parts"] = options["parts"] or (["server"] if options["slow_ms"] else PARTS)
    options["folder"] = os.path.abspath(options["folder"])
    options["only"] = [word for word in options["only"].split(",") if word]
    settings = Settings(**options)
    if settings.seconds < 0.2 or settings.slow_ms < 0 or not 16 <= settings.groups <= 4096:
        raise Fault("--seconds is at least 0.2, --slow at least 0, and --groups 16 to 4096")
    if settings.write and not settings.pages_have_this():
        raise Fault("--write keeps whole tables alone: leave out --only and --groups")
    for program in (settings.sim, settings.server):
        if not os.access(program, os.X_OK):
            raise Fault(f"{program} is missing: make programs builds it")
    return settings
