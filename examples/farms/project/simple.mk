# The five tests, without a build system that runs them.
CC = asancol-cc
CXX = asancol-c++
CFLAGS = -g
CXXFLAGS = -g

all: split join child wait vendor

split: split.cpp words.o
	$(CXX) $(CXXFLAGS) split.cpp words.o -o $@

join child: %: %.c words.o
	$(CC) $(CFLAGS) $< words.o -o $@

wait: wait.c
	$(CC) $(CFLAGS) $< -o $@

vendor: vendor.c
	cc $< -o $@

words.o: words.c words.h
	$(CC) $(CFLAGS) -c $< -o $@
