# Priorities in decimal, and repositories without packages; there is no system, and the kind that stands twice is named once.
repo zero -0 testtags <inline>
#>=Pkg: A 1 1 alien
repo  seven   007 empty
repo lowest -2147483648 testtags <inline>
#>=Ver: 3.0
#>no heading
repo highest 00002147483647 testtags <inline>
repo last -099 testtags <inline>
#>=Pkg: A 2 1 noarch
result order,order <inline>
