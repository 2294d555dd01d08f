/*
 * The verified estimators for C: matrices, the linear, information and square-root Kalman filters, model mixing, the
 * Rauch-Tung-Striebel smoother and the depot sheet.
 * Link libestimators.a, which `tools/archive estimators` proves and writes. It calls memcpy and memset, which every C
 * library has, and nothing else: firmware without a C library has to supply these two.
 *
 * Numbers are IEEE 754 doubles and may hold any bits. A matrix is its cells by rows, used sizes only: R x C is
 * R * C doubles. Sizes are 1 to ESTIMATORS_MAX_SIZE, a smoother's room is 1 to ESTIMATORS_MAX_SLOTS slots. Lengths and
 * sizes have 64 bits on every machine, 32-bit ones among them.
 *
 * What is told. A function that can refuse returns ESTIMATORS_OK or the first refusal that applies. Then nothing is
 * written, but for three functions, whose refusal can leave a changed filter, and which say what they leave:
 * estimators_information_update, estimators_sqrt_kalman_predict and estimators_sqrt_kalman_update.
 * A depot sheet's refusals are lines of its report, and not returned.
 *
 * What the caller sees to, because no function can test it:
 *   - A slice is a pointer and then how many doubles (or bytes) it holds. No pointer is NULL, not even one with a length of
 *     0; behind it stand as many doubles as the length says, aligned, to be read and, unless it is const, written.
 *   - What a call may write through one pointer, it reaches through no other: out is another slice than the inputs, and a
 *     filter does not overlap its measurement. There is no promise for a call in place.
 *   - The floating-point environment is that of a program's start: round to nearest, subnormal numbers kept. No flush to
 *     zero, and nothing in the process that turns it on (such as linking with -ffast-math): with it even the root of
 *     2^-1074 is wrong.
 *   - A NaN or an infinity is a number like any other: a step takes it in, tells ESTIMATORS_OK, and the filter may hold
 *     NaNs from then on. Test a sensor's reading with isfinite first.
 *   - What is lent is not changed by anybody else during the call.
 *
 * How to
 *   - A reading that is missing: predict and no update. The slot for the smoother is stored as usual.
 *   - A model without an input: i = 1, with b and u zero.
 *   - A copy of a filter or of a bank is a copy of its numbers.
 *   - A filter from NaN back to numbers: the reset function of its kind.
 *   - A duty of more than 64 readings: smooth it in parts, the last first. For the part before it take its own slots and, as
 *     one slot more, the first slot of the part that was smoothed, with its smoothed pair for the filtered one. What is
 *     smoothed so is, bit for bit, what one long pass would give: a pass reads of the next slot its smoothed pair alone.
 *
 * Threads: no function has state of its own, allocates, waits or keeps a pointer after it returned, so any number of
 * threads may call any of them on buffers of their own, or read one buffer together.
 *
 * Every call ends. Stack on x86-64, without what memcpy and memset use (tools/stack lists every function):
 *   estimators_sheet_report                   below 33 KB
 *   estimators_rts_smoother_smooth            below 13 KB, whatever its room
 *   every other function                      below 3 KB
 */
#ifndef ESTIMATORS_H
#define ESTIMATORS_H

#include <stdbool.h>
#include <stdint.h>

/* Raised when a name, a layout, a number or what a call does is changed here. */
#define ESTIMATORS_VERSION 1

/* What is told. The text at each function says which of them it can tell, besides the first two. */
#define ESTIMATORS_OK 0
#define ESTIMATORS_REFUSED_SIZE 1    /* a size or a length that is not as stated; always unchanged */
#define ESTIMATORS_REFUSED_EMPTY 2   /* smoothing with no slot stored */
#define ESTIMATORS_REFUSED_INVERSE 3 /* a matrix that inversion rejects, or a measured component without a variance */
#define ESTIMATORS_REFUSED_FACTOR 4  /* a matrix that has no Cholesky factor, or a factor that cannot be downdated */
#define ESTIMATORS_REFUSED_FULL 5    /* a smoother's buffer that is full */
#define ESTIMATORS_REFUSED_SLOT 6    /* a slot that is not stored */
/* In the report of a depot sheet, besides ESTIMATORS_REFUSED_INVERSE: */
#define ESTIMATORS_SHEET_FORM 7     /* the form of a line, or a missing or extra line */
#define ESTIMATORS_SHEET_RANGE 8    /* a field out of its range */
#define ESTIMATORS_SHEET_POSITION 9 /* a position that is no number, or outside 7 digits */

#define ESTIMATORS_MAX_SIZE 4   /* states, measurements, inputs and models: 1 to 4 */
#define ESTIMATORS_MAX_SLOTS 64 /* a smoother's room: 1 to 64 slots */

/* The type of what is told. It has to be looked at; compilers that can, warn where it is not. */
#if defined(__GNUC__) || defined(__clang__)
#define ESTIMATORS_TOLD __attribute__((warn_unused_result)) uint8_t
#else
#define ESTIMATORS_TOLD uint8_t
#endif

/* The widths that the code was compiled for: a negative length here is a machine that it does not fit. */
typedef char estimators_assert_double_has_8_bytes[sizeof(double) == 8 ? 1 : -1];
typedef char estimators_assert_bool_has_1_byte[sizeof(bool) == 1 ? 1 : -1];

#ifdef __cplusplus
extern "C" {
#endif

/* ---- numbers (scalar.rs): these never refuse, but for estimators_scalar_constants */

/* The square root, correctly rounded; NaN below zero, and -0 of -0. */
double estimators_scalar_sqrt(double x);
/* The sign cleared, also of -0. A NaN stays a NaN. */
double estimators_scalar_abs(double x);
/* x, or the end of min to max that it lies beyond. A NaN passes. */
double estimators_scalar_clamp_val(double x, double min, double max);
/* The same between -limit and limit. */
double estimators_scalar_saturate(double x, double limit);
/* The number itself, as the Rust's conversions give it. */
double estimators_scalar_from_f64(double v);
double estimators_scalar_to_f64(double x);
/* A whole number as the double nearest to it. */
double estimators_scalar_from_int(int32_t v);
/* The PID part of the number type: the same as estimators_scalar_abs and estimators_scalar_clamp_val. */
double estimators_scalar_pid_abs(double x);
double estimators_scalar_clamp_pid(double x, double min, double max);
/* Six constants into out: ZERO, ONE, TWO, HALF, PI, EPSILON. Refused with 1: out is not 6 long. */
ESTIMATORS_TOLD estimators_scalar_constants(double *out, uint64_t out_len);

/* ---- matrices (matrix.rs): r rows and c columns, by rows
 *
 * An r x c slice is r * c doubles, n x n is n * n, and a vector of n numbers is n doubles. out is another slice than the
 * inputs; a single number or a yes or no comes through a pointer. Each is refused with 1: a size outside 1 to 4, or a
 * slice of another length. Only estimators_matrix_inv and estimators_matrix_cholesky have a further refusal.
 */

/* All cells +0: out is r x c. estimators_matrix_default is the same. */
ESTIMATORS_TOLD estimators_matrix_zeros(uint64_t r, uint64_t c, double *out, uint64_t out_len);
ESTIMATORS_TOLD estimators_matrix_default(uint64_t r, uint64_t c, double *out, uint64_t out_len);
/* All cells val: out is r x c. */
ESTIMATORS_TOLD estimators_matrix_filled(uint64_t r, uint64_t c, double val, double *out, uint64_t out_len);
/* One on the diagonal and +0 elsewhere: out is n x n. */
ESTIMATORS_TOLD estimators_matrix_identity(uint64_t n, double *out, uint64_t out_len);
/* a (r x c) transposed: out is c x r. */
ESTIMATORS_TOLD estimators_matrix_transpose(uint64_t r, uint64_t c, const double *a, uint64_t a_len,
    double *out, uint64_t out_len);
/* a + b and a - b, cell by cell: all three are r x c. */
ESTIMATORS_TOLD estimators_matrix_add_mat(uint64_t r, uint64_t c, const double *a, uint64_t a_len,
    const double *b, uint64_t b_len, double *out, uint64_t out_len);
ESTIMATORS_TOLD estimators_matrix_sub_mat(uint64_t r, uint64_t c, const double *a, uint64_t a_len,
    const double *b, uint64_t b_len, double *out, uint64_t out_len);
/* Each cell of a times s, and times -1: a and out are r x c. */
ESTIMATORS_TOLD estimators_matrix_scale(uint64_t r, uint64_t c, const double *a, uint64_t a_len, double s,
    double *out, uint64_t out_len);
ESTIMATORS_TOLD estimators_matrix_neg(uint64_t r, uint64_t c, const double *a, uint64_t a_len,
    double *out, uint64_t out_len);
/* The cell of a (r x c) in row i, column j, from 0. Refused with 1 also outside the matrix. */
ESTIMATORS_TOLD estimators_matrix_get(uint64_t r, uint64_t c, uint64_t i, uint64_t j, const double *a, uint64_t a_len,
    double *out);
/* a with val in row i, column j: a and out are r x c. Refused with 1 also outside the matrix. */
ESTIMATORS_TOLD estimators_matrix_set(uint64_t r, uint64_t c, uint64_t i, uint64_t j, const double *a, uint64_t a_len,
    double val, double *out, uint64_t out_len);
/* The root of the sum of the squares of all cells of a (r x c), row after row. */
ESTIMATORS_TOLD estimators_matrix_frob_norm(uint64_t r, uint64_t c, const double *a, uint64_t a_len, double *out);
/* The sum of the diagonal of a (n x n). */
ESTIMATORS_TOLD estimators_matrix_trace(uint64_t n, const double *a, uint64_t a_len, double *out);
/* Whether a and b (both r x c) are equal cell by cell: -0 equals +0, a NaN equals nothing. The bool holds false
 * or true before the call too: set it first. */
ESTIMATORS_TOLD estimators_matrix_eq(uint64_t r, uint64_t c, const double *a, uint64_t a_len,
    const double *b, uint64_t b_len, bool *out);
/* a (r x k) times b (k x c): out is r x c. */
ESTIMATORS_TOLD estimators_matrix_matmul(uint64_t r, uint64_t k, uint64_t c, const double *a, uint64_t a_len,
    const double *b, uint64_t b_len, double *out, uint64_t out_len);
/* a (r x c) times the vector v (c): out is a vector (r). */
ESTIMATORS_TOLD estimators_matrix_matvec(uint64_t r, uint64_t c, const double *a, uint64_t a_len,
    const double *v, uint64_t v_len, double *out, uint64_t out_len);
/* The vector v (r) times the transposed vector w (c): out is r x c. */
ESTIMATORS_TOLD estimators_matrix_outer(uint64_t r, uint64_t c, const double *v, uint64_t v_len,
    const double *w, uint64_t w_len, double *out, uint64_t out_len);
/* v + w and v - w: all three are vectors (n). */
ESTIMATORS_TOLD estimators_matrix_vec_add(uint64_t n, const double *v, uint64_t v_len, const double *w, uint64_t w_len,
    double *out, uint64_t out_len);
ESTIMATORS_TOLD estimators_matrix_vec_sub(uint64_t n, const double *v, uint64_t v_len, const double *w, uint64_t w_len,
    double *out, uint64_t out_len);
/* Each number of v times s: v and out are vectors (n). */
ESTIMATORS_TOLD estimators_matrix_vec_scale(uint64_t n, const double *v, uint64_t v_len, double s,
    double *out, uint64_t out_len);
/* The sum of the products of v's and w's numbers (n each), from +0 and from left to right. */
ESTIMATORS_TOLD estimators_matrix_vec_dot(uint64_t n, const double *v, uint64_t v_len, const double *w, uint64_t w_len,
    double *out);
/* The root of v's product with itself (n). */
ESTIMATORS_TOLD estimators_matrix_vec_norm(uint64_t n, const double *v, uint64_t v_len, double *out);
/* The inverse of a: a and out are n x n. Refused with 3: a column's pivot is below EPSILON x 1,000,000. */
ESTIMATORS_TOLD estimators_matrix_inv(uint64_t n, const double *a, uint64_t a_len, double *out, uint64_t out_len);
/* The lower factor, +0 above the diagonal, from the lower triangle of a: a and out are n x n. Refused with 4: a reduced
 * diagonal at or below zero. */
ESTIMATORS_TOLD estimators_matrix_cholesky(uint64_t n, const double *a, uint64_t a_len, double *out, uint64_t out_len);

/* ---- the linear filter (kalman.rs): state n, measurement m, input i
 *
 * A filter is one slice: transition a (n x n), input matrix b (n x i), measurement matrix h (m x n), process noise
 * q (n x n), measurement noise r (m x m), state x (n), covariance p (n x n), in this order; so its last n + n * n
 * numbers are the estimate. ESTIMATORS_FILTER gives its length. Each function is refused with 1: a size outside 1 to 4,
 * or a slice of another length. A refusal leaves the filter unchanged.
 */
#define ESTIMATORS_PAIR(n) ((n) + (n) * (n))
#define ESTIMATORS_FILTER(n, m, i) \
    (2 * (n) * (n) + (n) * (i) + (m) * (n) + (m) * (m) + ESTIMATORS_PAIR(n))
/* Where the state and the covariance begin in a filter; the transition begins at 0. */
#define ESTIMATORS_FILTER_STATE(n, m, i) (ESTIMATORS_FILTER(n, m, i) - ESTIMATORS_PAIR(n))
#define ESTIMATORS_FILTER_COVARIANCE(n, m, i) (ESTIMATORS_FILTER(n, m, i) - (n) * (n))

/* The filter of a model and an estimate: a, q and p0 are n x n, b is n x i, h is m x n, r is m x m, x0 is a vector
 * (n). */
ESTIMATORS_TOLD estimators_kalman_new(uint64_t n, uint64_t m, uint64_t i, const double *a, uint64_t a_len,
    const double *b, uint64_t b_len, const double *h, uint64_t h_len, const double *q, uint64_t q_len,
    const double *r, uint64_t r_len, const double *x0, uint64_t x0_len, const double *p0, uint64_t p0_len,
    double *filter, uint64_t filter_len);
/* Position and speed with the step dt in seconds, the position measured: n = 2, m = 1, i = 1, so 19 numbers. q is
 * process_noise times (dt^4 / 4, dt^3 / 2; dt^3 / 2, dt^2); measurement_noise is a standard deviation, r its square.
 * The state starts at 0, the covariance with 1000 on the diagonal and 0 beside it. */
ESTIMATORS_TOLD estimators_kalman_position_velocity(double dt, double process_noise, double measurement_noise,
    double *filter, uint64_t filter_len);
/* One step on, with the input u (i): the state becomes A x + B u, the covariance A P At + Q. */
ESTIMATORS_TOLD estimators_kalman_predict(uint64_t n, uint64_t m, uint64_t i, double *filter, uint64_t filter_len,
    const double *u, uint64_t u_len);
/* Corrects the estimate by the measurement z (m); innovation (m) becomes z less H times the state before. Refused with
 * 3: inversion rejects the innovation covariance; then filter and innovation are unchanged. */
ESTIMATORS_TOLD estimators_kalman_update(uint64_t n, uint64_t m, uint64_t i, double *filter, uint64_t filter_len,
    const double *z, uint64_t z_len, double *innovation, uint64_t innovation_len);
/* The state x0 (n) and the covariance p0 (n x n) in place of the filter's. */
ESTIMATORS_TOLD estimators_kalman_reset(uint64_t n, uint64_t m, uint64_t i, double *filter, uint64_t filter_len,
    const double *x0, uint64_t x0_len, const double *p0, uint64_t p0_len);
/* Copies of the state, a vector (n), and of the covariance (n x n), into out. */
ESTIMATORS_TOLD estimators_kalman_state(uint64_t n, uint64_t m, uint64_t i, const double *filter, uint64_t filter_len,
    double *out, uint64_t out_len);
ESTIMATORS_TOLD estimators_kalman_covariance(uint64_t n, uint64_t m, uint64_t i,
    const double *filter, uint64_t filter_len, double *out, uint64_t out_len);

/* ---- model mixing (imm.rs): k models of n states, m measurements
 *
 * A bank is one slice: for each model its transition a (n x n), state x (n), covariance p (n x n), process noise q
 * (n x n) and likelihood (1); then the transition (k x k; row i, column j: the probability of model j after model i),
 * the measurement matrix c (m x n), the measurement noise r (m x m) and the probabilities mu (k), in this order.
 * ESTIMATORS_MODEL gives the length of a model, ESTIMATORS_BANK that of a bank. Each function is refused with 1: a size
 * outside 1 to 4, or a slice of another length. A refusal leaves the bank unchanged.
 */
#define ESTIMATORS_MODEL(n) (2 * (n) * (n) + ESTIMATORS_PAIR(n) + 1)
#define ESTIMATORS_BANK(n, m, k) \
    ((k) * ESTIMATORS_MODEL(n) + (k) * (k) + (m) * (n) + (m) * (m) + (k))
/* Where a model's parts begin in a bank (models from 0), and the probabilities mu. */
#define ESTIMATORS_BANK_STATE(n, model) ((model) * ESTIMATORS_MODEL(n) + (n) * (n))
#define ESTIMATORS_BANK_COVARIANCE(n, model) (ESTIMATORS_BANK_STATE(n, model) + (n))
#define ESTIMATORS_BANK_LIKELIHOOD(n, model) (((model) + 1) * ESTIMATORS_MODEL(n) - 1)
#define ESTIMATORS_BANK_PROBABILITIES(n, m, k) (ESTIMATORS_BANK(n, m, k) - (k))

/* The bank of k models, one after another, each with the probability 1 / k: models is k * ESTIMATORS_MODEL(n) numbers,
 * transition is k x k, c is m x n, r is m x m. */
ESTIMATORS_TOLD estimators_imm_new(uint64_t n, uint64_t m, uint64_t k, const double *models, uint64_t models_len,
    const double *transition, uint64_t transition_len, const double *c, uint64_t c_len,
    const double *r, uint64_t r_len, double *bank, uint64_t bank_len);
/* Every model's state and covariance mixed from those of all, by the probabilities of having come from each; mu becomes
 * the predicted probabilities. Where a predicted probability is not above EPSILON its model's weights are zero: finite
 * states mix to zero, and a covariance to zero, or to NaN where a square of the difference of states overflows. */
ESTIMATORS_TOLD estimators_imm_mix_estimates(uint64_t n, uint64_t m, uint64_t k, double *bank, uint64_t bank_len);
/* mu becomes each probability times its model's likelihood, as a part of their sum; 1 / k each where the sum is below
 * EPSILON. */
ESTIMATORS_TOLD estimators_imm_update_probabilities(uint64_t n, uint64_t m, uint64_t k,
    double *bank, uint64_t bank_len);
/* The states by their probabilities, summed, into out (n). */
ESTIMATORS_TOLD estimators_imm_fused_estimate(uint64_t n, uint64_t m, uint64_t k,
    const double *bank, uint64_t bank_len, double *out, uint64_t out_len);
/* The probability of a model, from 0, into *out. Refused with 1 too: a model that is not below k. */
ESTIMATORS_TOLD estimators_imm_model_probability(uint64_t n, uint64_t m, uint64_t k,
    const double *bank, uint64_t bank_len, uint64_t model, double *out);

/* ---- the information filter (information_filter.rs): state n, measurement m, input i
 *
 * It keeps the inverted covariance, omega (n x n), and the vector xi (n), omega times the state. A filter is one slice laid
 * out as the linear filter's, with xi where that has its state and omega where that has its covariance: a, b, h, q, r, xi,
 * omega. ESTIMATORS_INFORMATION gives its length. Each function is refused with 1: a size outside 1 to 4, or a slice of
 * another length. A refusal leaves everything unchanged, but for one: see estimators_information_update.
 */
#define ESTIMATORS_INFORMATION(n, m, i) ESTIMATORS_FILTER(n, m, i)
/* Where xi and omega begin in a filter. */
#define ESTIMATORS_INFORMATION_VECTOR(n, m, i) ESTIMATORS_FILTER_STATE(n, m, i)
#define ESTIMATORS_INFORMATION_MATRIX(n, m, i) ESTIMATORS_FILTER_COVARIANCE(n, m, i)
/* How many numbers a sensor takes in a list: h (m x n), its inverted noise (m x m), and what it measured (m). */
#define ESTIMATORS_SENSOR(n, m) ((m) * (n) + (m) * (m) + (m))

/* The filter of a model and an estimate: a, q and p0 are n x n, b is n x i, h is m x n, r is m x m, x0 is a vector (n).
 * Omega is p0 inverted, xi is omega times x0. Refused with 3: inversion rejects p0. */
ESTIMATORS_TOLD estimators_information_new(uint64_t n, uint64_t m, uint64_t i, const double *a, uint64_t a_len,
    const double *b, uint64_t b_len, const double *h, uint64_t h_len, const double *q, uint64_t q_len,
    const double *r, uint64_t r_len, const double *x0, uint64_t x0_len, const double *p0, uint64_t p0_len,
    double *filter, uint64_t filter_len);
/* The filter of a model, omega0 (n x n) and xi0 (n). */
ESTIMATORS_TOLD estimators_information_from_information(uint64_t n, uint64_t m, uint64_t i,
    const double *a, uint64_t a_len, const double *b, uint64_t b_len, const double *h, uint64_t h_len,
    const double *q, uint64_t q_len, const double *r, uint64_t r_len,
    const double *omega0, uint64_t omega0_len, const double *xi0, uint64_t xi0_len,
    double *filter, uint64_t filter_len);
/* One step on, with the input u (i): the linear filter's prediction of the state and the covariance that omega and xi
 * stand for. Refused with 3: inversion rejects omega, or the predicted covariance. */
ESTIMATORS_TOLD estimators_information_predict(uint64_t n, uint64_t m, uint64_t i, double *filter, uint64_t filter_len,
    const double *u, uint64_t u_len);
/* Adds the measurement z (m): Ht R^-1 H to omega, Ht R^-1 z to xi; innovation (m) becomes z less H times the state after
 * it. Refused with 3: inversion rejects r, and nothing is written; or it rejects the new omega, and then the filter KEEPS
 * the addition, and innovation is unchanged. */
ESTIMATORS_TOLD estimators_information_update(uint64_t n, uint64_t m, uint64_t i, double *filter, uint64_t filter_len,
    const double *z, uint64_t z_len, double *innovation, uint64_t innovation_len);
/* Adds what one sensor measured, z (m), by its own h (m x n) and its own inverted noise r_inv (m x m). */
ESTIMATORS_TOLD estimators_information_fuse_sensor(uint64_t n, uint64_t m, uint64_t i,
    double *filter, uint64_t filter_len, const double *h, uint64_t h_len,
    const double *r_inv, uint64_t r_inv_len, const double *z, uint64_t z_len);
/* The same for count sensors in one call, 0 or more, one after another: sensors is one slice of count times
 * ESTIMATORS_SENSOR(n, m) numbers, of each sensor its h, its r_inv and its z. Refused with 1 also where that is not its
 * length; then no sensor is added. */
ESTIMATORS_TOLD estimators_information_fuse_sensors(uint64_t n, uint64_t m, uint64_t i,
    double *filter, uint64_t filter_len, uint64_t count, const double *sensors, uint64_t sensors_len);
/* The state x0 (n) and the covariance p0 (n x n) in place of the filter's. Refused with 3: inversion rejects p0. */
ESTIMATORS_TOLD estimators_information_reset(uint64_t n, uint64_t m, uint64_t i, double *filter, uint64_t filter_len,
    const double *x0, uint64_t x0_len, const double *p0, uint64_t p0_len);
/* The state (n), omega inverted times xi, and the covariance (n x n), omega inverted, into out. Refused with 3: inversion
 * rejects omega. */
ESTIMATORS_TOLD estimators_information_state(uint64_t n, uint64_t m, uint64_t i,
    const double *filter, uint64_t filter_len, double *out, uint64_t out_len);
ESTIMATORS_TOLD estimators_information_covariance(uint64_t n, uint64_t m, uint64_t i,
    const double *filter, uint64_t filter_len, double *out, uint64_t out_len);
/* Copies of omega (n x n) and of xi (n) into out. */
ESTIMATORS_TOLD estimators_information_matrix(uint64_t n, uint64_t m, uint64_t i,
    const double *filter, uint64_t filter_len, double *out, uint64_t out_len);
ESTIMATORS_TOLD estimators_information_vector(uint64_t n, uint64_t m, uint64_t i,
    const double *filter, uint64_t filter_len, double *out, uint64_t out_len);

/* ---- the square-root filter (sqrt_kalman.rs): state n, measurement m, input i
 *
 * A filter is one slice: a, b, h and q as in the linear filter, then each measurement's standard deviation r_diag (m),
 * the state x (n) and the factor s (n x n), a lower triangle with s times its transpose = the covariance.
 * ESTIMATORS_SQRT gives its length. Each function is refused with 1: a size outside 1 to 4, or a slice of another length;
 * that leaves everything unchanged. What another refusal leaves is said with the function.
 *
 * The downdate of an update is the Rust's, which turns its vector with the old cells of the factor where the textbook
 * has the new ones; so from two states on, the factor after an update is not that of the linear filter's covariance.
 * With covariance (1, 0; 0, 1), h = (1, 1) and deviation 1 the second state's variance is 0.9444, and the linear filter's
 * is 0.6667: do not take these variances for the errors' size.
 */
#define ESTIMATORS_SQRT(n, m, i) (2 * (n) * (n) + (n) * (i) + (m) * (n) + (m) + ESTIMATORS_PAIR(n))
/* Where the state and the factor begin in a filter. */
#define ESTIMATORS_SQRT_STATE(n, m, i) (ESTIMATORS_SQRT(n, m, i) - ESTIMATORS_PAIR(n))
#define ESTIMATORS_SQRT_FACTOR(n, m, i) (ESTIMATORS_SQRT(n, m, i) - (n) * (n))

/* The filter of a model, the state x0 (n) and the covariance p0 (n x n), whose lower triangle alone is read. Refused
 * with 4: p0 has no factor; then filter is unchanged. */
ESTIMATORS_TOLD estimators_sqrt_kalman_new(uint64_t n, uint64_t m, uint64_t i, const double *a, uint64_t a_len,
    const double *b, uint64_t b_len, const double *h, uint64_t h_len, const double *q, uint64_t q_len,
    const double *r_diag, uint64_t r_diag_len, const double *x0, uint64_t x0_len,
    const double *p0, uint64_t p0_len, double *filter, uint64_t filter_len);
/* The same with the factor s0 (n x n) itself. */
ESTIMATORS_TOLD estimators_sqrt_kalman_from_cholesky(uint64_t n, uint64_t m, uint64_t i,
    const double *a, uint64_t a_len, const double *b, uint64_t b_len, const double *h, uint64_t h_len,
    const double *q, uint64_t q_len, const double *r_diag, uint64_t r_diag_len,
    const double *x0, uint64_t x0_len, const double *s0, uint64_t s0_len,
    double *filter, uint64_t filter_len);
/* One step on, with the input u (i): the state becomes A x + B u, the factor that of A P At + Q. Refused with 4: there
 * is none; then the state is the new one, and the factor the old. */
ESTIMATORS_TOLD estimators_sqrt_kalman_predict(uint64_t n, uint64_t m, uint64_t i, double *filter, uint64_t filter_len,
    const double *u, uint64_t u_len);
/* Corrects state and factor by the measurement z (m), one component after another, each from what the one before it
 * left; innovation (m) gets what each component less h times the state before it is. Refused with 3: a component's
 * variance is at or below zero; then the filter is as after the components before it. With 4: its downdate; then the
 * state is updated by it, and the factor's columns before the failing one are turned. Either leaves innovation unchanged. */
ESTIMATORS_TOLD estimators_sqrt_kalman_update(uint64_t n, uint64_t m, uint64_t i, double *filter, uint64_t filter_len,
    const double *z, uint64_t z_len, double *innovation, uint64_t innovation_len);
/* The state x0 (n) and the factor of p0 (n x n) in place of the filter's. Refused with 4: p0 has no factor; then filter
 * is unchanged. */
ESTIMATORS_TOLD estimators_sqrt_kalman_reset(uint64_t n, uint64_t m, uint64_t i, double *filter, uint64_t filter_len,
    const double *x0, uint64_t x0_len, const double *p0, uint64_t p0_len);
/* Copies of the state, a vector (n), and of the factor (n x n), and the covariance (n x n), into out. */
ESTIMATORS_TOLD estimators_sqrt_kalman_state(uint64_t n, uint64_t m, uint64_t i,
    const double *filter, uint64_t filter_len, double *out, uint64_t out_len);
ESTIMATORS_TOLD estimators_sqrt_kalman_cholesky_factor(uint64_t n, uint64_t m, uint64_t i,
    const double *filter, uint64_t filter_len, double *out, uint64_t out_len);
ESTIMATORS_TOLD estimators_sqrt_kalman_covariance(uint64_t n, uint64_t m, uint64_t i,
    const double *filter, uint64_t filter_len, double *out, uint64_t out_len);

/* ---- the smoother (rts_smoother.rs): state size n, room for slots, of which the first count are stored
 *
 * A slot is two pairs, filtered and predicted for the next step; a pair is a state (n) and its covariance (n x n). The
 * slots lie in one slice of room * ESTIMATORS_SLOT(n) numbers, the smoothed pairs in one of room * ESTIMATORS_PAIR(n).
 * The caller keeps the count; with count = 0 the smoother is empty again. Each function is refused with 1: n outside 1
 * to 4, room outside 1 to 64, a count above room, or a slice of another length. A refusal leaves everything unchanged.
 */
#define ESTIMATORS_SLOT(n) (2 * ESTIMATORS_PAIR(n))
/* Where the parts of a slot, from 0, begin in the slots, and those of a smoothed pair in the output. */
#define ESTIMATORS_SLOT_STATE(n, slot) ((slot) * ESTIMATORS_SLOT(n))
#define ESTIMATORS_SLOT_COVARIANCE(n, slot) (ESTIMATORS_SLOT_STATE(n, slot) + (n))
#define ESTIMATORS_SLOT_PREDICTED_STATE(n, slot) (ESTIMATORS_SLOT_STATE(n, slot) + ESTIMATORS_PAIR(n))
#define ESTIMATORS_SLOT_PREDICTED_COVARIANCE(n, slot) (ESTIMATORS_SLOT_PREDICTED_STATE(n, slot) + (n))
#define ESTIMATORS_SMOOTHED_STATE(n, slot) ((slot) * ESTIMATORS_PAIR(n))
#define ESTIMATORS_SMOOTHED_COVARIANCE(n, slot) (ESTIMATORS_SMOOTHED_STATE(n, slot) + (n))

/* One slot more, after those stored, and *count one more: filtered and predicted are pairs, ESTIMATORS_PAIR(n) numbers
 * each. Refused with 5: count is room. */
ESTIMATORS_TOLD estimators_rts_smoother_store_forward(uint64_t n, uint64_t room, uint64_t *count,
    double *slots, uint64_t slots_len, const double *filtered, uint64_t filtered_len,
    const double *predicted, uint64_t predicted_len);
/* A copy of slot k, from 0, into out, ESTIMATORS_SLOT(n) numbers. Refused with 6: k is not below count. */
ESTIMATORS_TOLD estimators_rts_smoother_get_state(uint64_t n, uint64_t room, uint64_t count,
    const double *slots, uint64_t slots_len, uint64_t k, double *out, uint64_t out_len);
/* The smoothed pairs of the stored slots into output, and +0 past them; transition is n x n. Refused with 2: no slot is
 * stored; with 3: a slot before the last has a predicted covariance that inversion rejects. */
ESTIMATORS_TOLD estimators_rts_smoother_smooth(uint64_t n, uint64_t room, uint64_t count,
    const double *slots, uint64_t slots_len, const double *transition, uint64_t transition_len,
    double *output, uint64_t output_len);

/* ---- the depot sheet: a duty's sheet in bytes, its report in bytes
 *
 * Line 1 has five fields: step in seconds, process noise, measurement noise, stages, readings. Then a line for each stage, its
 * end in metres, and a line for each reading, its kind (1, or 0 for none) and its metres. A field is a whole number right-justified
 * in 8 bytes, and a line ends with one byte 0A. The report is a line for each reading: its number from 1, its smoothed position in
 * whole metres, its stage; or one line with the number of a refusal (3, 7, 8 or 9) and the line of the sheet. A sheet may have any
 * length and any bytes; what stands after its first 1,418 bytes plays no part.
 */
#define ESTIMATORS_SHEET_STAGES 32   /* stages: 1 to 32 */
#define ESTIMATORS_SHEET_READINGS 64 /* readings: 1 to 64 */
#define ESTIMATORS_SHEET 1418  /* the bytes of a sheet that play a part: the longest has 1,417 */
#define ESTIMATORS_REPORT 1600 /* the bytes of the longest report: 64 lines of 25 */

/* The report of a sheet at the start of out, and in *written how many bytes it has; what stands in out after it stays. Refused
 * with 1: out_len is below ESTIMATORS_REPORT. Then neither out nor *written is changed. */
ESTIMATORS_TOLD estimators_sheet_report(const uint8_t *sheet, uint64_t sheet_len, uint8_t *out, uint64_t out_len,
    uint64_t *written);

#ifdef __cplusplus
}
#endif

#endif
