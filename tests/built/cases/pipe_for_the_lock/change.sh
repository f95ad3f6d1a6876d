# A pipe has the name of the lock.
rm d/.lock
mkfifo d/.lock
