"""What stands around the proved correlator `vlbi`: jobs, delays, record files, fringes, schedules, recordings with a true fringe, pictures.

Each module says what it is for, and each command is a module of `vlbi.commands`. Nothing here is proved: it is tested.
"""

__version__ = "0.1"
