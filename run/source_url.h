/* The template of --source-url, which asancol-report fills in for the links of its page.

   Called: by options.c, in the one thread of asancol-run; no lock. */
#ifndef ASANCOL_RUN_SOURCE_URL_H
#define ASANCOL_RUN_SOURCE_URL_H

/* The mistake in a template and its remedy; or null. They are those of report/asancol_report/source_url.py: what that
   refuses must not reach it, or the reports of the run were lost. */
const char *source_url_fault(const char *url);

#endif
