"""The configuration of a cluster: of its members a client needs the bounds of numbers and where the centres are."""
from __future__ import annotations

import json
import os
from dataclasses import dataclass
from typing import Mapping, Tuple, Union

Address = Tuple[str, int]


class ConfigurationError(ValueError):
    """What was given is no configuration of a cluster, or lacks what a client needs of it."""


@dataclass(frozen=True)
class Configuration:
    """Of a cluster's configuration what its clients need. Centres are numbered from 1."""

    hosts: Tuple[str, ...]
    port: int
    bounds: Tuple[Tuple[int, int], ...]

    @property
    def centres(self) -> range:
        """The numbers of all centres."""
        return range(1, len(self.hosts) + 1)

    def asked(self, centre: int) -> Address:
        """Where a centre takes the requests of its client."""
        return self.hosts[centre - 1], self.port + 16 + centre

    def answered(self, centre: int) -> Address:
        """Where a centre sends the answers to its client, at the centre's own host."""
        return self.hosts[centre - 1], self.port + 32 + centre

    @property
    def nearest_to_zero(self) -> Tuple[int, ...]:
        """Numbers that every item may have, each as near to zero as its bounds allow."""
        return tuple(min(max(0, low), high) for low, high in self.bounds)


def is_whole(value: object) -> bool:
    return isinstance(value, int) and not isinstance(value, bool)


def bounds_of(value: object) -> Tuple[Tuple[int, int], ...]:
    pairs = []
    for pair in value if isinstance(value, list) else ():
        if not (isinstance(pair, list) and len(pair) == 2 and all(map(is_whole, pair)) and pair[0] <= pair[1]):
            raise ConfigurationError(f"bounds: {pair} is no pair of a least and a greatest value")
        pairs.append((pair[0], pair[1]))
    if not 1 <= len(pairs) <= 4:
        raise ConfigurationError("bounds: one to four pairs are wanted")
    return tuple(pairs)


def hosts_of(value: object, centres: object) -> Tuple[str, ...]:
    hosts = tuple(value) if isinstance(value, list) else ()
    if not 1 <= len(hosts) <= 9 or not all(isinstance(host, str) for host in hosts) or len(hosts) != centres:
        raise ConfigurationError("hosts: one text is wanted for each centre")
    return hosts


def configuration_of(members: Mapping[str, object]) -> Configuration:
    """The configuration with these members. Members that a client does not need are passed over, also those it does not know."""
    for name in ("centres", "bounds", "hosts", "port"):
        if name not in members:
            raise ConfigurationError(f"{name}: the member is missing")
    port = members["port"]
    if not is_whole(port) or not 1 <= port <= 65_000:  # type: ignore[operator]
        raise ConfigurationError("port: a whole number from 1 to 65,000 is wanted")
    return Configuration(hosts_of(members["hosts"], members["centres"]), port, bounds_of(members["bounds"]))  # type: ignore[arg-type]


def read_configuration(source: Union[str, os.PathLike, Mapping[str, object], Configuration]) -> Configuration:
    """A configuration from the path of its file, or from its members."""
    if isinstance(source, Configuration):
        return source
    if isinstance(source, Mapping):
        return configuration_of(source)
    with open(source, "rb") as file:
        text = file.read()
    try:
        members = json.loads(text)
    except ValueError as error:
        raise ConfigurationError(f"{os.fspath(source)}: {error}") from error
    if not isinstance(members, dict):
        raise ConfigurationError(f"{os.fspath(source)}: no JSON object")
    return configuration_of(members)
