"""ibsim and OpenSM, started for one fabric in a folder of their own, and ended with the block that holds them:

    with Simulation(folder, fabric, "updn") as simulation:
        simulation.wait_for_sweep(1)
        simulation.call(["ibnetdiscover"], "net.txt")

The folder is emptied first. Both are ended by their process numbers, and by the system (setpriv --pdeathsig) if this
program is killed. They write into the folder alone; the socket of ibsim has the number of this process in its name. The
programs are those of Debian's packages opensm, ibsim-utils and infiniband-diags. If these were only unpacked
(`dpkg -x`), with the libraries that they need (libopensm9, libosmcomp5, libosmvendor5, libibumad3, libibmad5,
libibnetdisc5, libumad2sim0, libwrap0), the variable OPENSM_ROOT names the folder."""

import os
import pathlib
import re
import shutil
import signal
import subprocess
import sys
import time

import fabrics

ROOT = pathlib.Path(os.environ.get("OPENSM_ROOT", "/"))
LIBRARIES = ROOT / "usr/lib/x86_64-linux-gnu"
ASKER = pathlib.Path(__file__).resolve().with_name("levels")
SECONDS = 60
ON_ONE_LANE = ("minhop", "dnup", "sssp", "dor", "updn", "ftree", "nue")
FOR_SWITCHES = ("updn+roots", "ftree+roots", "nue+switches")
WITH_LANES = ("lash", "dfsssp", "torus-2QoS", "nue+lanes")
ENGINES = (*ON_ONE_LANE, *FOR_SWITCHES, *WITH_LANES)
OPTIONS = {"updn+roots": "connect_roots TRUE", "ftree+roots": "connect_roots TRUE",
           "nue+switches": "nue_include_switches TRUE", "nue+lanes": "nue_max_num_vls 8"}
TIMES = {"dfsssp": 8}
LEVELS = "path-sl.dump"
KEPT = ("opensm-subnet.lst", "opensm-lfts.dump", "opensm-sl2vl.dump", LEVELS)
REFUSALS = ("No routing engine able", "cannot find or setup routing engine")


class Refused(Exception):
    """The engine makes no tables for the fabric."""


def program(name):
    """The path of a program of the packages."""
    for folder in ("usr/sbin", "usr/bin"):
        if (ROOT / folder / name).exists():
            return str(ROOT / folder / name)
    sys.exit(f"{name} is not there: install opensm, ibsim-utils and infiniband-diags, or unpack them and the "
             "libraries that they need into a folder, and name that by OPENSM_ROOT")


def end_on_signals():
    """Lets a signal that ends this program end its blocks too."""
    for number in (signal.SIGTERM, signal.SIGHUP, signal.SIGINT):
        signal.signal(number, lambda number, _: sys.exit(128 + number))


def fabric_to_cut(name, link):
    """The named fabric, which has a link at this place. If there is none, this program ends."""
    fabric = fabrics.fabric_called(name)
    if fabric is None or not 0 <= link < len(fabric.links):
        sys.exit(f"no fabric is called {name}, or it has no link {link}")
    return fabric


def rows_in(text):
    """The port of each switch and LID that tables tell, without those that name none."""
    rows, switch = {}, None
    for line in text.splitlines():
        if head := re.search(r"^Unicast lids .*guid (0x\w+)", line):
            switch = head[1]
        elif row := re.match(r"(0x\w{4}) (\d{3})(?: |$)", line):
            if row[2] != "255":
                rows[switch, int(row[1], 16)] = row[2]
    return rows


def keep_only(folder, names):
    """Takes all out of a folder but some files."""
    for path in pathlib.Path(folder).iterdir():
        if path.is_dir():
            shutil.rmtree(path)
        elif path.name not in names:
            path.unlink()


class Simulation:
    def __init__(self, folder, fabric, engine):
        self.folder = pathlib.Path(folder).resolve()
        self.fabric, self.engine = fabric, engine
        self.started = []

    def __enter__(self):
        try:
            self.start()
        except BaseException:
            self.end()
            raise
        return self

    def __exit__(self, *_):
        self.end()

    def start(self):
        """Starts ibsim, waits until it listens, and starts OpenSM."""
        shutil.rmtree(self.folder, ignore_errors=True)
        (self.folder / "cache").mkdir(parents=True)
        (self.folder / "fabric.net").write_text(self.fabric.netlist())
        (self.folder / "roots").write_text(self.fabric.root_guids())
        (self.folder / "torus").write_text(self.fabric.torus)
        (self.folder / "opensm.conf").write_text(f"max_op_vls 5\n{OPTIONS.get(self.engine, '')}\n")
        self.variables = dict(os.environ, IBSIM_SOCKNAME=f"fabric-test-{os.getpid()}", OSM_TMP_DIR=".",
                              OSM_CACHE_DIR="./cache", LD_LIBRARY_PATH=str(LIBRARIES))
        switches, hosts = len(self.fabric.switches), len(self.fabric.hosts)
        ports = sum(map(len, self.fabric.ports())) + 64 * switches + 2 * hosts
        self.simulator = self.launch(
            [program("ibsim"), "-s", "-N", switches + hosts + 10, "-S", switches + 10, "-P", ports,
             "-L", switches + hosts + 1024, "fabric.net"], "ibsim.out", self.variables)
        self.wait(lambda: "simulator ready" in self.read("ibsim.out"), self.simulator, "ibsim")
        words = ["-R", f"{self.engine.split('+')[0]},no_fallback", "-a", "roots"]
        words += ["--torus_config", "torus"] if self.engine == "torus-2QoS" else []
        words += ["-Q"] if self.engine in WITH_LANES else []
        self.manage(words)

    def manage(self, routing):
        """Starts OpenSM with these options, which sweeps once and then after each cut."""
        words = ["opensm", "-F", "opensm.conf", "-s", 0, "-f", "osm.log", "-D", "0x43", "-d", 2,
                 "--dump_files_dir", ".", *routing]
        self.manager = self.launch(self.simulated(words), "opensm.out", dict(self.variables, SIM_HOST="H0"))

    def manage_anew(self, routing):
        """Ends OpenSM and starts it with other options. Ports keep the LIDs that they have."""
        self.manager.terminate()
        self.manager.wait(SECONDS)
        for name in ("osm.log", "opensm-lfts.dump", "opensm-subnet.lst"):
            (self.folder / name).unlink(missing_ok=True)
        self.manage(routing)

    def launch(self, words, out, variables):
        """Starts a program in the folder."""
        with open(self.folder / out, "w") as file:
            process = subprocess.Popen(["setpriv", "--pdeathsig", "KILL", *map(str, words)], cwd=self.folder,
                                       env=variables, stdin=subprocess.PIPE, stdout=file, stderr=subprocess.STDOUT)
        self.started.append(process)
        return process

    def simulated(self, words):
        """The words of a call, of one of the packages or by a path, whose adapter is a simulated one."""
        name, *rest = words
        path = name if "/" in name else program(name)
        return ["env", f"LD_PRELOAD={LIBRARIES / 'umad2sim/libumad2sim.so'}", path, *rest]

    def read(self, name):
        """What a file of the folder has so far."""
        path = self.folder / name
        return path.read_text(errors="replace") if path.exists() else ""

    def wait(self, is_so, process, name):
        """Waits until something is so, or ends this program."""
        until = time.monotonic() + SECONDS
        while not is_so():
            if process.poll() is not None:
                sys.exit(f"{name} ended with {process.returncode}: look into {self.folder}")
            if time.monotonic() > until:
                sys.exit(f"{name} took more than {SECONDS} seconds: look into {self.folder}")
            time.sleep(0.05)

    def wait_for_sweep(self, number):
        """Waits until OpenSM has swept so often and dumped the tables of all switches."""
        def is_done():
            log = self.read("osm.log")
            if any(word in log for word in REFUSALS):
                raise Refused(self.engine)
            return log.count("SUBNET UP") >= number and self.has_dumped()

        self.wait(is_done, self.manager, "opensm")

    def has_dumped(self):
        return (self.read("opensm-lfts.dump").count(" lids dumped") == len(self.fabric.switches)
                and self.read("opensm-subnet.lst").endswith("\n"))

    def hold(self):
        """Holds OpenSM, so that it hears of nothing."""
        self.manager.send_signal(signal.SIGSTOP)

    def let_go(self):
        """Lets OpenSM go on; it sweeps anew if a link was cut."""
        self.manager.send_signal(signal.SIGCONT)

    def cut(self, link):
        """Cuts a link, named by its place in the fabric."""
        one, _ = self.fabric.links[link]
        before = sum(one in pair for pair in self.fabric.links[:link])
        port = self.fabric.hosts.count(one) + before + 1
        self.simulator.stdin.write(f'Unlink "{self.fabric.switches[one]}"[{port}]\n'.encode())
        self.simulator.stdin.flush()
        return self.fabric.switches[one], port

    def call(self, words, out, given="", seconds=SECONDS):
        """Writes into a file of the folder what a program prints that asks the fabric from the last host."""
        asker = f"H{len(self.fabric.hosts) - 1}"
        with open(self.folder / out, "w") as file, open(self.folder / f"{out}.err", "w") as err:
            subprocess.run(["setpriv", "--pdeathsig", "KILL", *self.simulated(words)], cwd=self.folder, check=True,
                           env=dict(self.variables, SIM_HOST=asker), input=given, text=True, stdout=file, stderr=err,
                           timeout=seconds)
        return self.folder / out

    def ask_levels(self):
        """Writes into a file of the folder the service levels of all paths, as the subnet manager tells them."""
        words = [str(ASKER), str(TIMES.get(self.engine, 1))]
        return self.call(words, LEVELS, self.read("opensm-subnet.lst"), 10 * SECONDS)

    def end(self):
        """Ends what was started, the last first, and takes away what the simulated adapters leave."""
        for process in reversed(self.started):
            process.stdin.close()
            process.terminate()
            try:
                process.wait(5)
            except subprocess.TimeoutExpired:
                process.kill()
                process.wait()
        for path in self.folder.glob("sys-*"):
            shutil.rmtree(path, ignore_errors=True)


def is_kept(place):
    """Whether a folder has what `make` left: tables, or nothing if the engine refused the fabric."""
    return place.exists() and {path.name for path in place.iterdir()} <= {*KEPT}


def make(folder, name, engine):
    """Makes the tables of an engine for a named fabric, in a folder of their own; False if it refuses the fabric."""
    place = pathlib.Path(folder) / f"{name}.{engine}"
    try:
        with Simulation(place, fabrics.fabric_called(name), engine) as running:
            running.wait_for_sweep(1)
            if engine in WITH_LANES:
                running.ask_levels()
        is_made = True
    except Refused:
        is_made = False
    keep_only(place, KEPT if is_made else ())
    return is_made
