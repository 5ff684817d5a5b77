module yurewha

go 1.18
