"""A server that speaks S3: Ceph's gateway over one disk in memory, of Debian's packages, for one run."""
from __future__ import annotations

import os
import shutil
import socket
import subprocess
import tempfile
import time
import uuid

# What it is made of: Debian's packages ceph-mon, ceph-osd, ceph-common and radosgw.
PROGRAMS = ("ceph-mon", "ceph-osd", "ceph-authtool", "monmaptool", "ceph", "radosgw", "radosgw-admin")
# For how many seconds a part may take to start.
PATIENCE = 240
# The user whose the buckets are. The server listens on this machine alone.
KEY, SECRET = "try-s3", "try-s3-secret"

CONF = """[global]
fsid = {fsid}
mon_initial_members = a
mon_host = v2:127.0.0.1:{mon_port}
public_addr = 127.0.0.1
cluster_addr = 127.0.0.1
auth_cluster_required = cephx
auth_service_required = cephx
auth_client_required = cephx
auth_allow_insecure_global_id_reclaim = true
osd_pool_default_size = 1
osd_pool_default_min_size = 1
osd_pool_default_pg_num = 4
osd_pool_default_pg_autoscale_mode = off
osd_crush_chooseleaf_type = 0
osd_crush_initial_weight = 1
mon_allow_pool_size_one = true
mon_max_pg_per_osd = 1000
mon_data_avail_warn = 2
mon_data_avail_crit = 1
osd_objectstore = memstore
memstore_device_bytes = 1073741824
osd_op_num_shards = 2
osd_op_num_threads_per_shard = 1
ms_bind_port_min = {osd_port}
ms_bind_port_max = {osd_port_max}
log_file = {folder}/log/$name.log
log_to_stderr = false
err_to_stderr = true
admin_socket = {folder}/$name.asok
run_dir = {folder}
pid_file = {folder}/$name.pid
crash_dir = {folder}
mon_data = {folder}/mon
osd_data = {folder}/osd
keyring = {folder}/keyring
rgw_data = {folder}/rgw
rgw_frontends = beast endpoint=127.0.0.1:{port}
rgw_thread_pool_size = 32
rgw_enable_usage_log = false
"""


def missing():
    """The programs that are not installed."""
    return [name for name in PROGRAMS if shutil.which(name) is None]


def free_port():
    with socket.socket() as probe:
        probe.bind(("127.0.0.1", 0))
        return probe.getsockname()[1]


class Server:
    """The server, which stops where the block ends."""

    def __init__(self):
        self.folder = tempfile.mkdtemp(prefix="try-s3-server-")
        self.port = free_port()
        self.parts = {}
        self.keeps = False
        os.makedirs(f"{self.folder}/log")
        for part in ("mon", "osd", "rgw"):
            os.makedirs(f"{self.folder}/{part}")

    @property
    def url(self):
        return f"http://127.0.0.1:{self.port}"

    def __enter__(self):
        try:
            self._start()
        except BaseException:
            self.keeps = True
            self.stop()
            raise
        return self

    def __exit__(self, *_):
        self.stop()

    def _conf(self):
        return f"{self.folder}/ceph.conf"

    def _run(self, *words, patience=PATIENCE):
        done = subprocess.run(
            [words[0], *words[1:], "-c", self._conf()], capture_output=True, text=True, timeout=patience, check=False
        )
        if done.returncode != 0:
            raise RuntimeError(f"{' '.join(words)}: status {done.returncode}: {done.stderr.strip()[-500:]}")
        return done.stdout

    def start_part(self, name, *words):
        with open(f"{self.folder}/log/{name}.out", "ab") as log:
            self.parts[name] = subprocess.Popen(
                [*words, "-c", self._conf()], stdin=subprocess.DEVNULL, stdout=log, stderr=log, start_new_session=True
            )

    def _wait(self, what, is_there):
        until = time.monotonic() + PATIENCE
        while not is_there():
            if time.monotonic() > until:
                raise RuntimeError(f"{what} does not start: see {self.folder}/log")
            time.sleep(0.2)

    def _answers(self, *words):
        try:
            return self._run(*words, patience=5)
        except (RuntimeError, subprocess.TimeoutExpired):
            return ""

    def _start(self):
        fsid, osd_port, mon_port = str(uuid.uuid4()), free_port(), free_port()
        numbers = {"fsid": fsid, "folder": self.folder, "port": self.port, "mon_port": mon_port}
        with open(self._conf(), "w", encoding="utf-8") as conf:
            conf.write(CONF.format(osd_port=osd_port, osd_port_max=osd_port + 100, **numbers))
        ring, made = f"{self.folder}/keyring", f"{self.folder}/monmap"
        subprocess.run(
            ["ceph-authtool", "--create-keyring", ring, "--gen-key", "-n", "mon.", "--cap", "mon", "allow *"],
            check=True, capture_output=True,
        )
        subprocess.run(
            ["ceph-authtool", ring, "--gen-key", "-n", "client.admin", "--cap", "mon", "allow *", "--cap", "osd", "allow *"],
            check=True, capture_output=True,
        )
        subprocess.run(
            ["monmaptool", "--create", "--fsid", fsid, "--addv", "a", f"[v2:127.0.0.1:{mon_port}]", made],
            check=True, capture_output=True,
        )
        self._run("ceph-mon", "--mkfs", "-i", "a", "--monmap", made, "--keyring", ring)
        self.start_part("mon", "ceph-mon", "-f", "-i", "a")
        self._wait("the monitor", lambda: self._answers("ceph", "-s"))
        osd = str(uuid.uuid4())
        self._run("ceph", "osd", "new", osd, "0")
        key = self._run("ceph", "auth", "get-or-create", "osd.0", "mon", "allow profile osd", "osd", "allow *")
        with open(ring, "a", encoding="utf-8") as keys:
            keys.write(key)
        self._run("ceph-osd", "--mkfs", "-i", "0", "--osd-uuid", osd)
        self.start_part("osd", "ceph-osd", "-f", "-i", "0")
        self._wait("the disk", lambda: '"num_up_osds":1' in self._answers("ceph", "osd", "stat", "-f", "json"))
        self.start_gateway()
        self._run(
            "radosgw-admin", "user", "create", "--uid=try", "--display-name=try", f"--access-key={KEY}", f"--secret={SECRET}"
        )

    def start_gateway(self):
        self.start_part("rgw", "radosgw", "-f", "-n", "client.admin")
        self._wait("the gateway", self._listens)

    def _listens(self):
        with socket.socket() as probe:
            return probe.connect_ex(("127.0.0.1", self.port)) == 0

    def kill_gateway(self):
        self.parts["rgw"].kill()
        self.parts.pop("rgw").wait()

    def stop(self):
        for part in self.parts.values():
            part.kill()
            part.wait()
        if not self.keeps:
            shutil.rmtree(self.folder, ignore_errors=True)
