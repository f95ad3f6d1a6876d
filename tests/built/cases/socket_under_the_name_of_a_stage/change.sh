# A socket stands where the first stage of each run is made.
mkdir -p d
python3 -c 'import socket; socket.socket(socket.AF_UNIX).bind("d/.stage_0_0")'
