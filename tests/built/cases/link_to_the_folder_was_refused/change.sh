# The folder lies elsewhere, and a link leads to it.
mv d real
ln -s real d
