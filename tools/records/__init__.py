"""From a job and its records to what a person reads and sees."""
