// The rows of docs/ROWS.md and docs/OSQ.md that Linux has, by their labels.
#pragma once
#include <string>

#define CONFORMANCE_ROWS(X) \
    X(F1) X(T1) X(T2) X(U1) X(V1) X(V2) X(P0) X(P1) X(P2) X(P3) X(P4) \
    X(G1) X(G2) X(G3) X(G4) X(G5) X(G6) X(G7) X(G8) X(G9) X(G10) X(G11) X(N1) X(N2) X(C7) \
    X(H1) X(H2) X(W1) X(W2) X(W3) X(W4) X(W5) X(W6) X(W7) \
    X(E1) X(E2) X(E3) X(E4) X(E5) X(E6) X(E7) X(E8) X(E9) X(E10) X(E11) X(E12) X(E13) X(E14) X(E15) \
    X(K1) X(K2) X(K3) X(U2) X(U3) X(U4) X(U5) \
    X(R1) X(R2) X(R3) X(R4) X(R5) X(Wr1) X(Wr2) X(Wr3) X(Wr4) X(Wr5) X(Wr6) X(Y1) X(Y2) X(Y3) X(Y4) X(Y5) X(Z1) X(Z2) \
    X(O1) X(O2) X(O3) X(O4) X(O5) X(Q1) X(Q2) X(Q3) X(Q4) X(Q5) X(Q6) X(Q7) X(Q8) X(Q9) \
    X(X1) X(X2) X(X3) X(X4) X(X5) X(X6) X(X7)

enum class Row {
    none,
#define X(name) name,
    CONFORMANCE_ROWS(X)
#undef X
};

// The label, and `-` for none.
const char *name_of(Row row);
// The row with this label; a label that is none ends the run.
Row row_named(const std::string &label);
