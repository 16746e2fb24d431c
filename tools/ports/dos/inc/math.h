#define isnan __builtin_isnan
#define INFINITY __builtin_inff()
#define NAN __builtin_nanf("")
float sqrtf(float), floorf(float), ceilf(float), truncf(float), nearbyintf(float), fabsf(float);
float copysignf(float, float);
double sqrt(double), floor(double), ceil(double), trunc(double), nearbyint(double), fabs(double);
double copysign(double, double);
