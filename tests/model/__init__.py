"""A second reading of the pages of this profile: what a plate, a program and a log mean. Simple and slow on purpose."""
