"""The stations of `tools/drill`: each brings a cluster into trouble, does what docs/OPERATING.md says of it, and asserts what is said there.

With `handled` False a station leaves out what the document says to do, or does what it forbids; then it has to fail.
"""
import os
import re
import shutil
import subprocess
import time
from typing import Callable, List, NamedTuple

from .areas import Position, area_in_use, path_of, payloads_in
from .configuration import Configuration
from .drilling import Cluster, Failed, Orders, insert, items_of, must, run_tool, sum_of_file, wait_for, with_members


# How often a centre is started once more where something stays open at it; each time it asks for all of that anew.
STARTS = 8


class Setting(NamedTuple):
    program: str
    configuration: Configuration
    folder: str
    away: float
    handled: bool

    def cluster(self, name: str = "cluster", **given) -> Cluster:
        return Cluster(self.program, given.pop("configuration", self.configuration), os.path.join(self.folder, name), **given)


def heal(cluster: Cluster) -> None:
    """What is done after a centre was away: items are written anew, and a centre at which something stays open starts once more."""
    ran = cluster.tool("heal", "--configuration", cluster.path)
    must(ran.status == 0, f"heal leaves something: {ran.output} {ran.error}")
    for _ in range(STARTS):
        centres = staying_open(cluster)
        if not centres:
            return
        for centre in centres:
            cluster.end(centre)
            cluster.start(centre)


def staying_open(cluster: Cluster) -> List[int]:
    """The centres at which something is open for some seconds."""
    centres: List[int] = []
    for _ in range(4):
        time.sleep(2)
        centres = [int(found) for found in re.findall(r"transactions that stay open at centre (\d)", cluster.status().output)]
        if not centres:
            break
    return centres


def must_be_well(cluster: Cluster, when: str, handled: bool = True) -> None:
    """Nothing is older, open or an alarm; on a busy machine it takes a while until the last order is decided."""
    last = []

    def is_well():
        last[:] = [cluster.status()]
        return last[0].status == 0

    try:
        wait_for(is_well, "", 120 if handled else 15)
    except Failed:
        raise Failed(f"{when} status is {last[0].status}: {last[0].output}") from None


def must_be_so(problems: List[str]) -> None:
    must(not problems, f"{len(problems)} problems, as {problems[:3]}")


def rolling_restart(setting: Setting) -> None:
    """Each centre in turn is ended and started again under orders; what it missed is healed before the next one."""
    reported: List[tuple] = []
    with setting.cluster() as cluster:
        cluster.start_all("--new")
        for centre in cluster.configuration.numbers():
            with Orders(cluster) as orders:
                orders.must_commit(50, "before a restart")
                cluster.end(centre)
                orders.must_commit(100, f"without centre {centre}")
                cluster.start(centre)
                orders.must_commit(20, f"with centre {centre} again")
                reported += orders.end()
            if setting.handled:
                heal(cluster)
                must_be_well(cluster, f"after the restart of centre {centre}")
        must_be_well(cluster, "after all restarts", setting.handled)
        must_be_so(cluster.problems(reported))


def centre_away(setting: Setting) -> None:
    """A centre is away for a minute, and for a moment a second one; orders go on, at three of five more slowly."""
    with setting.cluster() as cluster:
        cluster.start_all("--new")
        with Orders(cluster, centres=[1, 2, 3], most_open=2) as orders:
            orders.must_commit(50, "at first")
            cluster.end(5)
            end = time.monotonic() + setting.away
            while time.monotonic() < end:
                orders.must_commit(20, "with a centre away")
            cluster.end(4)
            orders.must_commit(3, "with two centres away")
            cluster.start(4)
            cluster.start(5)
            orders.must_commit(20, "with all again")
            reported = orders.end()
        behind = cluster.status()
        must(behind.status == 1 and "items that centre 5 holds older" in behind.output, f"status does not say what is older: {behind}")
        if setting.handled:
            heal(cluster)
        must_be_well(cluster, "after a centre was away", setting.handled)
        must_be_so(cluster.problems(reported))


def lost_disk(setting: Setting) -> None:
    """All files of a centre are gone: it is never started again; the others go on, are read out, and a new cluster begins."""
    with setting.cluster() as cluster:
        cluster.start_all("--new")
        with Orders(cluster) as orders:
            orders.must_commit(200, "before the loss")
            reported = orders.end()
        cluster.end(3)
        lost = os.path.join(setting.folder, "lost")
        os.makedirs(lost)
        for name in os.listdir(cluster.folder):
            if name.startswith(("mdcc-3.log", "mdcc-3.alt", "mdcc-3.sum")):
                shutil.move(os.path.join(cluster.folder, name), lost)
        must("its log is gone" in cluster.refusal(3) and "its log is gone" in cluster.refusal(3, "--new"), "no word of a lost log")
        shutil.move(os.path.join(cluster.folder, "mdcc-3.id"), lost)
        must("--new" in cluster.refusal(3), "no word of --new")
        if not setting.handled:
            cluster.start_plain(3)
        where = 4 if setting.handled else 3
        must(insert(cluster, where, "bicycle"), "an order is not reported committed by the others")
        with Orders(cluster, centres=[1, 2, 4, 5]) as orders:
            orders.must_commit(50, "without the lost centre")
            reported += orders.end()
        must_be_so(cluster.problems(reported, without=(3,)))
        new_cluster(setting, cluster)


def new_cluster(setting: Setting, cluster: Cluster) -> None:
    """Reads the items out and begins a new cluster with them."""
    wait_for(lambda: "stay open" not in cluster.status("--centres", "1,2,4,5").output, "nothing is open at the others")
    exported = run_tool("export", "--folder", cluster.folder, "--configuration", cluster.path, "--without", "3")
    must("doubtful: the log of centre 3 is left out\nitems " in exported.error, f"the export is doubtful: {exported.error}")
    items = items_of(cluster, "--without", "3")
    must("bicycle" in items, "what was reported committed is not among the items")
    moved = with_members(setting.configuration, setting.folder, port=setting.configuration.port + 100)
    with setting.cluster("after", configuration=moved) as after:
        after.start_all("--new")
        ran = run_tool("import", "--configuration", after.path, given=exported.output)
        must(ran.status == 0, f"not all is imported: {ran}")
        must(items_of(after) == items, "the new cluster has other items")


def full_disk(setting: Setting) -> None:
    """The disk of a centre runs full: its node ends, the others go on, and it starts again by itself once there is room."""
    disk = os.path.join(setting.folder, "disk")
    os.makedirs(disk)
    if subprocess.run(["mount", "-t", "tmpfs", "-o", "size=3m", "tmpfs", disk], capture_output=True).returncode != 0:
        raise PermissionError("a small disk cannot be mounted here")
    try:
        with setting.cluster(folders={2: disk}) as cluster:
            fill_and_free(setting, cluster, disk)
    finally:
        subprocess.run(["umount", disk], check=True)


def fill_and_free(setting: Setting, cluster: Cluster, disk: str) -> None:
    for centre in cluster.configuration.numbers():
        cluster.start(centre, "--new", *([] if setting.handled else ["--once"]))
    with Orders(cluster, items=50) as orders:
        orders.must_commit(50, "before the disk is full")
        ballast = os.path.join(disk, "ballast")
        with open(ballast, "wb") as file:
            file.write(bytes(max(0, os.statvfs(disk).f_bavail * os.statvfs(disk).f_frsize - 150_000)))
        wait_for(lambda: any("centre 2 ended with status" in line for line in cluster.said(2)), "the node ends")
        orders.must_commit(50, "while a disk is full")
        os.unlink(ballast)
        boots = cluster.boots(2)
        wait_for(lambda: cluster.boots(2) > boots, "the node starts again once there is room", 300 if setting.handled else 60)
        orders.must_commit(20, "with all again")
        reported = orders.end()
    said = [line for line in cluster.said(2) if "ended with status" in line]
    # Its error stream stands on the same disk, so the line itself may be missing.
    must(any(word in said[0] for word in ("status 7", "status 6")), f"it ended otherwise: {said[0]}")
    must(run_tool("verify", "--folder", disk).status == 0, "facts are not those that were written")
    must_be_so(cluster.problems(reported))


def damage(path_folder: str, centre: int) -> int:
    """Closes a gate in the middle of a log, one bit, and gives how many facts stand before it."""
    area = area_in_use(path_folder, centre)
    lengths: List[int] = []
    with open(area.path, "rb", buffering=0) as file:
        payloads_in(file, area, Position(), lambda payloads: lengths.extend(map(len, payloads)))
    facts = area.count + (len(lengths) - area.count) // 2
    offset = area.begin + sum(lengths[:facts]) + 4 * facts + facts - area.count
    with open(area.path, "r+b") as file:
        file.seek(offset)
        must(file.read(1) == b"\1", "no open gate stands there")
        file.seek(offset)
        file.write(b"\0")
    return facts


def damaged_byte(setting: Setting) -> None:
    """One bit of a log changes: it is not started any more, looked at without a change, and the others go on."""
    with setting.cluster() as cluster:
        cluster.start_all("--new")
        with Orders(cluster) as orders:
            orders.must_commit(300, "before the damage")
            reported = orders.end()
        cluster.end(2)
        facts = damage(cluster.folder, 2)
        path = area_in_use(cluster.folder, 2).path
        before = sum_of_file(path)
        must("is damaged" in cluster.refusal(2), "no word of a damage")
        must(cluster.tool("verify", "--centre", "2").status == 1, "verify finds nothing")
        looked = cluster.tool("look", "--centre", "2")
        must(looked.status == 1 and f"{facts} facts up to byte" in looked.output, f"look ends otherwise: {looked.output[-300:]}")
        if not setting.handled:
            cluster.start_plain(2)
        with Orders(cluster, centres=[1, 3, 4, 5]) as orders:
            orders.must_commit(50, "without the damaged centre")
            reported += orders.end()
        must(sum_of_file(path) == before, "the damaged log was changed")
        must_be_so(cluster.problems(reported, without=(2,)))


def wrong_configuration(setting: Setting) -> None:
    """A centre is started with other bounds than its log was written with: refused; status tells where configurations differ."""
    with setting.cluster() as cluster:
        cluster.start_all("--new")
        right = cluster.configuration
        must(insert(cluster, 1, "lamp"), "an order commits")
        cluster.end(4)
        wrong = with_members(right, setting.folder, bounds=[[0, 7]])
        path = os.path.join(setting.folder, "wrong.json")
        with open(path, "wb") as file:
            file.write(wrong.text)
        must("has another configuration" in cluster.refusal(4, "--configuration", path), "no word of the configuration")
        told = run_tool("status", "--folder", cluster.folder, "--configuration", path, "--settle", "0")
        must(told.status == 2 and "another configuration than the one given" in told.output, f"status says nothing: {told.output}")
        if not setting.handled:
            cluster.start_plain(4, configuration=wrong)
        else:
            cluster.start(4)
        must(insert(cluster, 4, "vase"), "centre 4 takes an order that the configuration allows")
        must_be_well(cluster, "with the right configuration")


def wrong_folder(setting: Setting) -> None:
    """A centre is started in an empty folder, in one of another centre, and over a copy of another's files: refused."""
    with setting.cluster() as cluster:
        cluster.start_all("--new")
        must(insert(cluster, 1, "lamp"), "an order commits")
        cluster.end(1)
        empty, other = os.path.join(setting.folder, "empty"), os.path.join(setting.folder, "other")
        os.makedirs(empty)
        os.makedirs(other)
        for end in ("log", "alt", "id", "sum"):
            if os.path.exists(os.path.join(cluster.folder, f"mdcc-2.{end}")):
                shutil.copy(os.path.join(cluster.folder, f"mdcc-2.{end}"), os.path.join(other, f"mdcc-1.{end}"))
        must("--new" in cluster.refusal(1, "--folder", empty), "an empty folder is taken")
        must("those of centre 2" in cluster.refusal(1, "--folder", other), "the files of another centre are taken")
        if not setting.handled:
            cluster.start_plain(1, empty)
        else:
            cluster.start(1)
        must(insert(cluster, 1, "vase"), "centre 1 takes an order")
        items = items_of(cluster)
        must({"lamp", "vase"} <= items.keys(), f"what was reported committed is not there: {sorted(items)}")


def full_cells(setting: Setting) -> None:
    """The cells run full: an alarm before that; then no order commits, and a node that ends does not start, until it gets more of them."""
    few = with_members(setting.configuration, setting.folder, cells=1200)
    with setting.cluster(configuration=few) as cluster:
        cluster.start_all("--new")
        with Orders(cluster, kind="inserts", most_open=4) as orders:
            wait_for(lambda: "cells (Cells full)" in cluster.status("--settle", "0").output, "an alarm comes")
            wait_for(lambda: stands_still(orders), "the cells are full")
            reported = orders.end()
        must("ALARM: centre 1 uses" in cluster.status().output, "no alarm is there any more")
        if setting.handled:
            cluster.write(with_members(few, setting.folder, cells=20000))
        for centre in cluster.configuration.numbers():
            cluster.end(centre)
            cluster.start(centre)
        with Orders(cluster, kind="inserts") as orders:
            orders.must_commit(50, "with more cells")
            reported += orders.end()
        must_be_so(cluster.problems(reported))


def stands_still(orders: Orders) -> bool:
    before = orders.commits()
    time.sleep(4)
    return before > 50 and orders.commits() == before


STATIONS: List[Callable[[Setting], None]] = [rolling_restart, centre_away, lost_disk, full_disk, damaged_byte, wrong_configuration,
                                             wrong_folder, full_cells]
