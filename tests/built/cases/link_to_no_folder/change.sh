# The path is a link that leads nowhere.
ln -s gone d
