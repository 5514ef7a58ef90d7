"""Stores of earlier releases."""

# By their schema's number: statements that make a store's tables those of an earlier release, in which a job that is to stop had no cause.
SECOND = "DROP INDEX jobs_by_ended; DROP TABLE operators; UPDATE jobs SET why = 0 WHERE stopping = 1; UPDATE meta SET schema = 2;"
OLDER = {2: SECOND, 1: SECOND + "DROP INDEX jobs_by_age; DROP TABLE policy; UPDATE meta SET schema = 1;"}
