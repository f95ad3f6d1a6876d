# The folder is moved while a run holds it, and a link to it is put under its path.
mv d moved
ln -s moved d
