"""The parser of views is one of the distribution's packages, which is installed where it is missing."""

from trials.servers.installed import has, install

install("python3-pglast", lambda: has("pglast"))
