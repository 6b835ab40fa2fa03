// Reads an image on standard input, runs it with two places and 4 in r0, and prints how it ended.

#include <tpal.h>

#include <cinttypes>
#include <cstdio>

static uint8_t image[TPAL_MAX_IMAGE_BYTES + 1];
static uint8_t job[TPAL_MAX_JOB_BYTES];

int main()
{
    const int64_t registers[] = {4};
    uint8_t report[TPAL_REPORT_BYTES];
    size_t job_len = 0;
    tpal_job_parts parts = tpal_job_parts();

    parts.image = image;
    parts.image_len = std::fread(image, 1, sizeof image, stdin);
    parts.places = 2;
    parts.registers = registers;
    parts.register_count = 1;

    unsigned refusal = tpal_job_make(&parts, job, sizeof job, &job_len);
    if (refusal == TPAL_ACCEPTED)
        refusal = tpal_job_run(job, job_len, TPAL_RUN_BUDGET, report, sizeof report);
    if (refusal != TPAL_ACCEPTED) {
        std::printf("refused: %s\n", tpal_refusal_message(refusal));
        return 1;
    }
    switch (tpal_number(report, TPAL_REPORT_END)) {
    case TPAL_END_HALT:
        std::printf("halt with r0 %" PRIu64 "\n",
                    tpal_number(report, TPAL_REPORT_REGISTER(0) + TPAL_REGISTER_VALUE));
        break;
    case TPAL_END_FAULT:
        std::printf("fault: %s\n", tpal_fault_message(
            static_cast<unsigned>(tpal_number(report, TPAL_REPORT_FAULT))));
        break;
    default:
        std::printf("spent after %" PRIu64 " picks\n", tpal_number(report, TPAL_REPORT_PICKS));
        break;
    }
    return 0;
}
