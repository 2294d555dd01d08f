// The same work by Eigen's fixed-size matrices, what a C++ program would pick: times only, its bits are its own.
// compare/build compiles it where Eigen is installed, for plain x86-64 at -O3.
#include <Eigen/Cholesky>
#include <Eigen/Dense>

template <int R, int C> using Cells = Eigen::Matrix<double, R, C, C == 1 ? Eigen::ColMajor : Eigen::RowMajor>;
template <int R, int C> using Read = Eigen::Map<const Cells<R, C>>;
template <int R, int C> using Written = Eigen::Map<Cells<R, C>>;

// A linear filter as the port lays it out: a, b, h, q, r, x, p.
template <int N, int M, int I> static void step(double *filter, const double *u, const double *z) {
    const double *b = filter + N * N, *h = b + N * I, *q = h + M * N, *r = q + N * N;
    double *x = filter + 2 * N * N + N * I + M * N + M * M, *p = x + N;
    Read<N, N> A(filter), Q(q);
    Read<N, I> B(b);
    Read<M, N> H(h);
    Read<M, M> R(r);
    Written<N, 1> X(x);
    Written<N, N> P(p);
    const Cells<N, 1> ahead = A * X + B * Read<I, 1>(u);
    const Cells<N, N> spread = A * P * A.transpose() + Q;
    const Cells<M, M> innovation = H * spread * H.transpose() + R;
    const Cells<N, M> gain = spread * H.transpose() * innovation.inverse();
    X = ahead + gain * (Read<M, 1>(z) - H * ahead);
    P = (Cells<N, N>::Identity() - gain * H) * spread;
}

template <int N> static void multiply(const double *a, const double *b, double *out) {
    Written<N, N> made(out);
    made.noalias() = Read<N, N>(a) * Read<N, N>(b);
}

template <int N> static void invert(const double *a, double *out) {
    Written<N, N> made(out);
    made = Read<N, N>(a).inverse();
}

template <int N> static void factor(const double *a, double *out) {
    Written<N, N> made(out);
    made = Eigen::LLT<Cells<N, N>>(Read<N, N>(a)).matrixL();
}

#define SIZE(n) \
    extern "C" void eigen_matmul_##n(const double *a, const double *b, double *out) { multiply<n>(a, b, out); } \
    extern "C" void eigen_inv_##n(const double *a, double *out) { invert<n>(a, out); } \
    extern "C" void eigen_cholesky_##n(const double *a, double *out) { factor<n>(a, out); }
SIZE(1)
SIZE(2)
SIZE(3)
SIZE(4)
extern "C" void eigen_step_2_1(double *filter, const double *u, const double *z) { step<2, 1, 1>(filter, u, z); }
extern "C" void eigen_step_4_2(double *filter, const double *u, const double *z) { step<4, 2, 2>(filter, u, z); }
