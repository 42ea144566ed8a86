# Win64 is played with the registers of AMD64.
#include "amd64.S"
