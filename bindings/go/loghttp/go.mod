module vireoamalgam.example/slhdsa/loghttp

go 1.19

require (
	golang.org/x/mod v0.7.0
	vireoamalgam.example/slhdsa v0.0.0
)

replace vireoamalgam.example/slhdsa => ../
