from cqld.shell import main

raise SystemExit(main())
