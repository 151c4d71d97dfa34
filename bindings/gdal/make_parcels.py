#!/usr/bin/env python3
"""Writes a GeoPackage of made-up parcels and trucks, by SQLite alone.

usage: bindings/gdal/make_parcels.py FILE.gpkg [ROWS]

ROWS is 120 unless it is given. The parcels are those of demo/make_parcels.py, but some cities and
cents are null. They have three columns more: the day when a parcel was sent, whether it goes by
express, and its truck, which may be null or a number that no truck has. Some columns are NOT NULL.
No column is BOOLEAN: GDAL 3.6.2 sets wrong bits for one in the stream of a GeoPackage.
"""
import csv
import random
import re
import sqlite3
import subprocess
import sys
from pathlib import Path

PARCELS = Path(__file__).resolve().parent.parent.parent / "demo" / "make_parcels.py"
# What GDAL looks for, with two tables that have no geometry.
SCHEMA = """
pragma application_id = 1196444487;
pragma user_version = 10300;
create table gpkg_spatial_ref_sys (srs_name text not null, srs_id integer not null primary key,
    organization text not null, organization_coordsys_id integer not null,
    definition text not null, description text);
create table gpkg_contents (table_name text not null primary key, data_type text not null,
    identifier text unique, description text default '',
    last_change datetime not null default '2024-01-01T00:00:00Z',
    min_x double, min_y double, max_x double, max_y double, srs_id integer);
create table gpkg_geometry_columns (table_name text not null, column_name text not null,
    geometry_type_name text not null, srs_id integer not null, z tinyint not null,
    m tinyint not null);
create table parcels (fid integer primary key autoincrement not null, parcel text not null,
    city text, weight double, cents integer, days mediumint, day date not null, express mediumint,
    truck integer, note text);
create table trucks (fid integer primary key autoincrement not null, truck integer not null,
    city text not null, driver text);
insert into gpkg_contents (table_name, data_type, identifier)
    values ('parcels', 'attributes', 'parcels'), ('trucks', 'attributes', 'trucks');
"""
TRUCKS = [(truck, ["Linz", "Graz", "Wien"][truck % 3], ["Ada", None, "Jörg", "D'Arcy"][truck % 4])
          for truck in range(23)]


def parcels(rows: int):
    made = subprocess.run([sys.executable, PARCELS, str(rows)], check=True, capture_output=True)
    number = random.Random(rows)
    for row in list(csv.reader(made.stdout.decode().splitlines(keepends=True)))[1:]:
        parcel, city, weight, cents, days, note = (it or None for it in row)
        yield (parcel, city if number.random() < 0.9 else None, weight,
               cents if number.random() < 0.8 else None, days,
               f"2024-{number.randint(1, 12):02}-{number.randint(1, 28):02}",
               number.choice([0, 0, 1, None]), number.choice([*range(-2, 30), None, None]), note)


def make(file: Path, rows: int) -> None:
    file.unlink(missing_ok=True)
    database = sqlite3.connect(file)
    database.execute("pragma synchronous = off")
    database.executescript(SCHEMA)
    database.executemany(
        "insert into parcels (parcel, city, weight, cents, days, day, express, truck, note) "
        "values (?, ?, ?, ?, ?, ?, ?, ?, ?)", parcels(rows) if rows else [])
    database.executemany("insert into trucks (truck, city, driver) values (?, ?, ?)", TRUCKS)
    database.commit()
    database.close()


def main() -> int:
    words = sys.argv[1:]
    # isdigit() also holds for digits that int() doesn't read, as a superscript.
    are_numbers = all(re.fullmatch("[0-9]{1,18}", it) for it in words[1:])
    if len(words) not in (1, 2) or words[0].startswith("-") or not are_numbers:
        print(__doc__)
        return 2
    make(Path(words[0]), int(words[1]) if len(words) == 2 else 120)
    return 0


if __name__ == "__main__":
    sys.exit(main())
