# A socket has the name of the table.
rm -r d/t.create
python3 -c 'import socket; socket.socket(socket.AF_UNIX).bind("d/t.create")'
