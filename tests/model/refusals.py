"""What the models answer where they answer nothing else."""


class Refused(Exception):
    """A refusal, with document 01's number."""


class Malformed(Exception):
    """A line that cannot be read."""


def refuse_if(test, number):
    if test:
        raise Refused(number)
