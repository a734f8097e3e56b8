#include <raveltrellis.h>
#include <stdio.h>

int main(void) {
    const uint8_t requests[] = {RVT_ERF, 0, 0, 0, 0, 0, 0, 0x18, 0x40}; /* erf of 6 */
    uint8_t answers[RVT_LONGEST_ANSWER];
    struct rvt_report did;
    uint64_t code = rvt_batch_run(requests, sizeof requests, answers, sizeof answers, &did);
    printf("code %d, %d bytes; gamma of -0.5 is %.17g\n", (int)code, (int)did.written, rvt_tgamma_f64(-0.5));
    return code != RVT_DONE;
}
