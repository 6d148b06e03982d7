# The ten rows with the highest totals, by R and its package Matrix: a line `row entries total` each.
#
#     hhm export packets.snap | Rscript examples/top.R
#
# Rows count from 1, as in the text. R has no whole numbers of 64 bits, so rows and columns are read as words, and
# numbered anew in the order in which they come; the counts are doubles, which are exact as long as the total is at
# most 2^53.
suppressPackageStartupMessages(library(Matrix))
text <- file("stdin", "r")
size <- scan(text, what = "", skip = 1, nlines = 1, quiet = TRUE)
cells <- scan(text, what = list(row = "", col = "", count = 0), quiet = TRUE)
rows <- unique(cells$row)
cols <- unique(cells$col)
stopifnot(length(cells$count) == as.numeric(size[3]), sum(cells$count) <= 2^53)
matrix <- sparseMatrix(i = match(cells$row, rows), j = match(cells$col, cols), x = cells$count,
                       dims = c(length(rows), length(cols)), dimnames = list(rows, cols))
totals <- rowSums(matrix)
# (equal totals stay in the order of the rows)
for (place in head(order(-totals), 10)) {
    entries <- sum(cells$row == rows[place])
    cat(rows[place], " ", entries, " ", format(totals[[place]], scientific = FALSE), "\n", sep = "")
}
