"""The jobs of many days, whatever engine runs them: what a job makes, when its result already exists, and which jobs a set of days
needs."""
