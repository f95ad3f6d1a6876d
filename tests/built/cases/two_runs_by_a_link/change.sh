# One run goes by a link to the folder, as the other does by its name beforehand.
mv d real
ln -s real d
