"""The peers: GEOS by shapely, GDAL by its Python bindings, PostGIS by a server of its own.

A peer has the kinds of drawings that it does not write, and the forms in which it writes a file. The command of a form is
what is run, Python or SQL, with {} in the drawing's place. Reading a file, it answers the numbers of all points and the
polygon as it writes it itself, little-endian; nothing, if it finds no flat polygon of one ring."""

import contextlib
import glob
import os
import shutil
import signal
import struct
import subprocess
import tempfile
import time
from typing import NamedTuple


class Form(NamedTuple):
    command: str
    srid: bool = False  # puts the reference system into the file
    flat: bool = False  # leaves Z and M out


def in_both(little, big, *forms):
    """Each form in both byte orders, whose words take the place of ORDER."""
    return [form._replace(command=form.command.replace("ORDER", word)) for form in forms for word in (little, big)]


class Geos:
    name = "GEOS"
    lacks = {"M", "ZM", "kin of polygons", "not closed"}
    forms = in_both(
        "False",
        "True",
        Form("wkb.dumps({}, big_endian=ORDER)"),
        Form("wkb.dumps({}, srid=4326, big_endian=ORDER)", srid=True),
        Form("wkb.dumps({}, output_dimension=2, big_endian=ORDER)", flat=True),
    )

    def __init__(self, stack):
        import shapely
        from shapely import geos, wkb, wkt

        self.version = f"{geos.geos_version_string} (shapely {shapely.__version__})"
        self.wkb = wkb
        self.known = {"wkb": wkb, "wkt": wkt}

    def command(self, drawing, form):
        return form.command.format(f"wkt.loads({drawing.wkt!r})")

    def write(self, commands):
        return [eval(command, self.known) for command in commands]

    def read(self, files):
        return [self.found(self.wkb.loads(file)) for file in files]

    def found(self, polygon):
        if polygon.geom_type != "Polygon" or len(polygon.interiors) > 0 or polygon.has_z:
            return None
        numbers = [number for point in polygon.exterior.coords for number in point]
        return numbers, self.wkb.dumps(polygon, big_endian=False)


class Gdal:
    name = "GDAL"
    lacks = set()
    forms = in_both("wkbNDR", "wkbXDR", Form("{}.ExportToWkb(ogr.ORDER)"), Form("{}.ExportToIsoWkb(ogr.ORDER)"))

    def __init__(self, stack):
        from osgeo import gdal, ogr

        ogr.UseExceptions()
        gdal.PushErrorHandler("CPLQuietErrorHandler")  # else each ring that is not closed is warned of
        self.version = gdal.VersionInfo("RELEASE_NAME")
        self.ogr = ogr

    def command(self, drawing, form):
        made = f"Json({drawing.json!r})" if drawing.json else f"Wkt({drawing.wkt!r})"
        return form.command.format(f"ogr.CreateGeometryFrom{made}")

    def write(self, commands):
        return [bytes(eval(command, {"ogr": self.ogr})) for command in commands]

    def read(self, files):
        return [self.found(self.ogr.CreateGeometryFromWkb(file)) for file in files]

    def found(self, polygon):
        if polygon.GetGeometryType() != self.ogr.wkbPolygon or polygon.GetGeometryCount() != 1:
            return None
        ring = polygon.GetGeometryRef(0)
        numbers = [number for i in range(ring.GetPointCount()) for number in ring.GetPoint_2D(i)]
        return numbers, bytes(polygon.ExportToWkb(self.ogr.wkbNDR))


class Postgis:
    name = "PostGIS"
    lacks = set()
    forms = in_both(
        "NDR",
        "XDR",
        Form("ST_AsBinary({}, 'ORDER')"),
        Form("ST_AsBinary(ST_SetSRID({}, 4326), 'ORDER')"),
        Form("ST_AsBinary(ST_Force2D({}), 'ORDER')", flat=True),
        Form("ST_AsEWKB(ST_SetSRID({}, 0), 'ORDER')"),
        Form("ST_AsEWKB(ST_SetSRID({}, 4326), 'ORDER')", srid=True),
    )

    def __init__(self, stack):
        self.ask = stack.enter_context(server())
        self.ask(["create extension postgis"])
        [[extension, version]] = self.ask(["select postgis_lib_version(), current_setting('server_version')"])
        self.version = f"{extension} (PostgreSQL {version.split()[0]})"

    def command(self, drawing, form):
        made = f"GeoJSON('{drawing.json}')" if drawing.json else f"Text('{drawing.wkt}')"
        return form.command.format(f"ST_GeomFrom{made}")

    def write(self, commands):
        rows = self.ask(f"select encode({command}, 'hex')" for command in commands)
        return [bytes.fromhex(file) for [file] in rows]

    def read(self, files):
        asked = (
            f"""select GeometryType(g), ST_NRings(g), ST_CoordDim(g), encode(ST_AsBinary(g, 'NDR'), 'hex'),
            (select string_agg(encode(float8send(ST_X(geom)) || float8send(ST_Y(geom)), 'hex'), '' order by path)
            from ST_DumpPoints(g)) from (select ST_GeomFromWKB('\\x{file.hex()}') g) as it"""
            for file in files
        )
        return [self.found(*row) for row in self.ask(asked)]

    def found(self, kind, rings, dimensions, again, points):
        if (kind, rings, dimensions) != ("POLYGON", "1", "2"):
            return None
        numbers = [number for [number] in struct.iter_unpack(">d", bytes.fromhex(points))]
        return numbers, bytes.fromhex(again)


@contextlib.contextmanager
def server():
    """A PostgreSQL server with PostGIS, its files and its socket in a temporary folder, without a port. Handed out is how
    to ask it. Root may not run it: it is then run by the user that Debian has for it."""
    controls = sorted(glob.glob("/usr/share/postgresql/*/extension/postgis.control"))
    if not controls:
        raise FileNotFoundError("no PostgreSQL with PostGIS under /usr/share/postgresql")
    programs = f"/usr/lib/postgresql/{controls[-1].split('/')[4]}/bin"
    user = {"user": "postgres", "group": "postgres", "extra_groups": []} if os.geteuid() == 0 else {}
    with tempfile.TemporaryDirectory() as folder, open(f"{folder}/log", "wb") as log:
        if user:
            shutil.chown(folder, "postgres", "postgres")

        def run(program, *words, **more):
            return subprocess.run([f"{programs}/{program}", *words], cwd=folder, **user, **more)

        def ask(questions):
            """The rows that the questions give, each a list of words."""
            words = ["-h", folder, "-U", "postgres", "-qAtX", "-v", "ON_ERROR_STOP=1"]
            lines = "".join(f"{question};\n" for question in questions)
            said = run("psql", *words, input=lines, check=True, stdout=subprocess.PIPE, text=True).stdout
            return [line.split("|") for line in said.splitlines()]

        data = f"{folder}/data"
        run("initdb", "-D", data, "-A", "trust", "-U", "postgres", "--no-sync", check=True, stdout=log)
        words = ["-D", data, "-k", folder, "-c", "listen_addresses=", "-F"]
        process = subprocess.Popen([f"{programs}/postgres", *words], cwd=folder, stdout=log, stderr=log, **user)
        try:
            while run("pg_isready", "-q", "-h", folder).returncode != 0 and process.poll() is None:
                time.sleep(0.1)
            yield ask
        finally:
            process.send_signal(signal.SIGINT)
            process.wait()
