/* Runs every group; the last line of the output is the two counts. */
#include "check_findings.h"

int main(void)
{
    test_document();
    test_readings();
    test_fields();
    test_texts();
    test_writing();
    test_rewriting();
    test_sheet_p();
    test_collections();
    test_collection_rows();
    test_references();
    test_samples();
    test_random();
    test_statements();
    test_random_statements();
    test_findings();
    test_warnings();
    test_damage();
    test_findings_text();
    test_random_findings();
    test_register();
    test_registered();
    test_random_registered();
    free(test_out);
    free(test_found);
    free(test_text);
    printf("%lu %lu\n", test_passed, test_failed);
    return test_failed == 0 ? 0 : 1;
}
