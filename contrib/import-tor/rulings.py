"""What a C tor authority's operator rules of relays, in the words of a station input."""
import ipaddress
import re

# The words of a station input: of several that tor applies to a relay the first one stands.
WORDS = ("reject", "invalid", "middleonly", "badexit")

# The options that rule by address, with their words.
BY_ADDRESS = {
    "AuthDirReject": "reject",
    "AuthDirInvalid": "invalid",
    "AuthDirBadExit": "badexit",
    "AuthDirMiddleOnly": "middleonly",
}

# A word on which tor has no say, but where this option is 1.
ONLY_WITH = {"badexit": "AuthDirListBadExits", "middleonly": "AuthDirListMiddleOnly"}


def fingerprint_of(key, descriptors):
    """The fingerprint that a key of approved-routers names, or None where no descriptor has the Ed25519 key."""
    if re.fullmatch(r"[0-9A-Fa-f]{40}", key):
        return key.upper()
    for name, descriptor in descriptors.items():
        if descriptor.ed25519_key() == key.rstrip("="):
            return name
    return None


def by_key(text, descriptors, tell):
    """Each fingerprint and word of an approved-routers file."""
    for line in text.splitlines():
        words = line.partition("#")[0].split(None, 1)
        if len(words) != 2 or not words[0].startswith("!"):
            continue
        word, key = words[0][1:].lower(), words[1].replace(" ", "").lstrip("$")
        name = fingerprint_of(key, descriptors)
        if word not in WORDS:
            tell(f"approved-routers: !{word} {key} has no word in a station input: left out")
        elif name is None:
            tell(f"approved-routers: !{word} {key}: no descriptor has this key: left out")
        else:
            yield name, word


def net_of(pattern):
    """The IPv4 net of an address pattern, or None."""
    words = pattern.split()
    address = words[-1].rpartition(":")[0] or words[-1]
    try:
        return ipaddress.IPv4Network("0.0.0.0/0" if address == "*" else address, strict=False)
    except ValueError:
        return None


def by_address(options, descriptors, tell):
    """Each fingerprint and word of the options that rule by address: of the relays that are known now."""
    for option, word in BY_ADDRESS.items():
        for pattern in filter(None, (each.strip() for each in ",".join(options.all(option)).split(","))):
            net = net_of(pattern)
            if net is None:
                tell(f"{option} {pattern} is no IPv4 net: left out")
                continue
            held = [name for name, each in descriptors.items() if ipaddress.IPv4Address(each.address()) in net]
            tell(f"{option} {pattern} holds for {len(held)} of the relays known now; later ones are not ruled")
            yield from ((name, word) for name in held)


def rulings(text, options, descriptors, tell):
    """The word for each relay that is ruled."""
    found = {}
    for name, word in (*by_key(text, descriptors, tell), *by_address(options, descriptors, tell)):
        found.setdefault(name, set()).add(word)
    chosen = {}
    for name, words in sorted(found.items()):
        voted = {word for word in words if word not in ONLY_WITH or options.is_set(ONLY_WITH[word])}
        for word in sorted(words - voted):
            tell(f"{name} {word}: tor does not vote about it without {ONLY_WITH[word]} 1: left out")
        if len(voted) > 1:
            tell(f"{name} is ruled {', '.join(sorted(voted))}: only the first of {', '.join(WORDS)} stands")
        if voted:
            chosen[name] = next(word for word in WORDS if word in voted)
    return chosen
