# A link that leads nowhere has the name of the lock.
ln -sf ../made d/.lock
