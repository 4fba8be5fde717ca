"""Loaded once into the process that workers are forked from: so a worker is ready at once."""

from .worker import warm_up

warm_up()
