# The folder is moved while a run holds it, and the case's run makes another one under its path.
mv d moved
