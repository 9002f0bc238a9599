module vireoamalgam.example/slhdsa

go 1.19
