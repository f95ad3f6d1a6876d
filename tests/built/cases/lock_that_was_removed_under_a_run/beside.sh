# The lock is removed while a run holds it, and the case's run makes another one.
rm d/.lock
