#!/usr/bin/env python3
"""Writes the configuration of nginx in front of an authority, from nginx.conf.in and what goes into it.

    configure.py --listen 192.0.2.1:80 --daemon 127.0.0.1:9131 --front 127.0.0.1:9132 --station STATION > nginx.conf
    configure.py --listen 192.0.2.1:80 --mirror 127.0.0.1:9030 --authority 192.0.2.7:80 --station STATION > nginx.conf

The addresses of STATION's `authority` lines are free of the limits, and those given by --free. With --measuring each
descriptor that a relay posts goes to the C tor authority at that address too (contrib/measure).

With --mirror what `dirmirror` at that address has is asked of it. All else, and what it has not, goes to the front, or to
the authority that --authority names, which may be of any kind.
"""
import argparse
import ipaddress
import pathlib
import re
import sys

MEASURING = """        # A copy of each descriptor, for the authority that measures; nobody waits for its answer.
        location = /measuring {
            internal;
            client_max_body_size 128k;
            proxy_connect_timeout 2s;
            proxy_read_timeout 5s;
            proxy_pass http://%s/tor/;
        }
"""


def an_address(text):
    """An `IP:PORT`, with brackets round an IPv6 address."""
    host, _, port = text.rpartition(":")
    if not host or not port.isdecimal() or not 1 <= int(port) <= 65535:
        raise SystemExit(f"configure: {text} is no IP:PORT")
    an_ip(host.removeprefix("[").removesuffix("]"))
    return text


def an_ip(text):
    """An address, or a net of addresses."""
    try:
        return str(ipaddress.ip_network(text))
    except ValueError:
        raise SystemExit(f"configure: {text} is no IP address") from None


def authorities(path):
    """The addresses of the `authority` lines of a station input."""
    try:
        text = path.read_bytes().partition(b"\nend-station\n")[0].decode("utf-8", "replace")
    except OSError as error:
        raise SystemExit(f"configure: {path}: {error.strerror}") from None
    found = re.findall(r"(?m)^authority [0-9A-Fa-f]{40} (\S+):[0-9]+$", text)
    if not found:
        raise SystemExit(f"configure: {path}: no authority line with an address")
    return [an_ip(each.strip("[]")) for each in found]


# What is left to an authority of any kind.
ALL_ELSE = """        # All else is the authority's.
        location / {
            client_max_body_size 16m;
            proxy_pass http://rest;
        }
"""


def two_parts(name):
    """What a file has for the upstreams and for the locations."""
    upstreams, _, locations = pathlib.Path(__file__).with_name(name).read_text("ascii").partition("@@\n")
    return upstreams, locations


def configuration(listen, free, daemon=None, front=None, mirror=None, authority=None, measuring=None):
    """The configuration for these addresses."""
    upstreams, locations = "", ""
    if mirror:
        upstreams, locations = two_parts("mirror.conf.in")
    if daemon:
        more_upstreams, more_locations = two_parts("authority.conf.in")
        upstreams, locations = upstreams + more_upstreams, locations + more_locations
    else:
        locations += ALL_ELSE
    values = {
        "LISTEN": "".join(f"        listen {each} backlog=1024;\n" for each in listen),
        "DAEMON": daemon,
        "FRONT": front,
        "MIRROR": mirror,
        "REST": authority or front,
        "FREE": "\n".join(f"        {each} 1;" for each in dict.fromkeys(free)),
        "COPY": "            mirror /measuring;\n" if measuring else "",
        "MEASURING": MEASURING % measuring if measuring else "",
    }
    template = pathlib.Path(__file__).with_name("nginx.conf.in").read_text("ascii")
    whole = template.replace("@UPSTREAMS@", upstreams).replace("@LOCATIONS@", locations)
    return re.sub(r"@([A-Z]+)@", lambda found: values[found.group(1)], whole)


def look_at_words(given):
    """Looks whether there is somebody who answers."""
    if bool(given.daemon) != bool(given.front):
        raise SystemExit("configure: --daemon and --front go together")
    if bool(given.daemon) == bool(given.authority) or given.authority and not given.mirror:
        raise SystemExit("configure: say --daemon and --front, or --mirror and --authority")
    if given.authority and given.measuring:
        raise SystemExit("configure: --measuring wants --daemon and --front")


def main():
    """Writes the configuration."""
    parser = argparse.ArgumentParser(description=__doc__, formatter_class=argparse.RawDescriptionHelpFormatter)
    parser.add_argument("--listen", required=True, action="append", metavar="IP:PORT", help="the public DirPort; or several")
    parser.add_argument("--daemon", metavar="IP:PORT", help="where `dirauth serve` listens")
    parser.add_argument("--front", metavar="IP:PORT", help="where front.py listens")
    parser.add_argument("--mirror", metavar="IP:PORT", help="where `dirmirror` listens")
    parser.add_argument("--authority", metavar="IP:PORT", help="the DirPort of an authority that has no front.py")
    parser.add_argument("--station", type=pathlib.Path, metavar="FILE", help="the station input of the daemon")
    parser.add_argument("--free", action="append", default=[], metavar="IP", help="an address or net without limits")
    parser.add_argument("--measuring", metavar="IP:PORT", help="the DirPort of the authority that measures")
    given = parser.parse_args()
    look_at_words(given)
    free = [an_ip(each) for each in given.free] + (authorities(given.station) if given.station else [])
    listen = [an_address(each) for each in given.listen]
    names = ("daemon", "front", "mirror", "authority", "measuring")
    more = {name: an_address(getattr(given, name)) for name in names if getattr(given, name)}
    sys.stdout.write(configuration(listen, free, **more))


if __name__ == "__main__":
    main()
