;;;; The command line: the words of chaosd, in their order.

(in-package :chaosnet)

(defparameter *usage* "A second end of Chaosnet's FILE, after MIT AI Memo 628, in Common Lisp
Usage: chaosd.lisp serve [OPTIONS] ADDRESS UDP FOLDER [PEER ...]
       chaosd.lisp get   [OPTIONS] ADDRESS UDP SERVER PATH ...
       chaosd.lisp put   [OPTIONS] ADDRESS UDP SERVER LOCAL ...
Options: --carriage N or --chudp, --bridge ADDRESS (with --chudp: the next hop of all packets),
--contact NAME (FILE), --window N, --quiet; --turns N of serve; --login NAME, --text and --timeout N
of get and put (15 seconds); --output LOCAL of get; --as PATH of put. They mean what chaosd's mean.
A PEER or SERVER is ADDRESS=UDP; the PEER *=UDP is the place of all other hosts.
")

(defparameter *of-all* '("--carriage" "--chudp" "--bridge" "--contact" "--window" "--quiet"))

(defparameter *options*
  `(("serve" "--turns" ,@*of-all*)
    ("get" "--login" "--text" "--timeout" "--output" ,@*of-all*)
    ("put" "--login" "--text" "--timeout" "--as" ,@*of-all*)))

(defun parse-line (subcommand words)
  "The options of a line as a list of (name . word), and its other words."
  (let ((options '()) (others '()))
    (loop while words
          do (let ((word (pop words)))
               (cond ((string= word "--") (setf others (revappend words others) words '()))
                     ((not (begins-p "--" word)) (push word others))
                     ((not (member word (rest subcommand) :test #'string=))
                      (expected word (join "an option of " (first subcommand))))
                     ((member word '("--text" "--quiet" "--chudp") :test #'string=)
                      (push (cons word t) options))
                     (words (push (cons word (pop words)) options))
                     (t (expected word "a value after it")))))
    (values options (nreverse others))))

(defun option (name options &optional default)
  (or (cdr (assoc name options :test #'string=)) default))

(defun host-options (options window)
  "What the options say of datagrams, of the contact and of the windows, which have WINDOW else."
  (let ((carriage (option "--carriage" options))
        (chudp (option "--chudp" options))
        (bridge (option "--bridge" options)))
    (when (and chudp carriage) (expected carriage "no --carriage with --chudp"))
    (when (and bridge (not chudp)) (expected bridge "--chudp with --bridge"))
    (list :carriage (if chudp :chudp (number-word (or carriage "1") 1 2 "1 or 2"))
          :bridge (and bridge (address-word bridge))
          :contact (contact-word (option "--contact" options "FILE"))
          :window (number-word (option "--window" options (decimal window)) 1 64 "1 to 64"))))

(defun last-name (name)
  (subseq name (1+ (or (position #\/ name :from-end t) -1))))

(defun get-one (client path options)
  "Gets a file, beside its place first; - is the standard output."
  (let* ((octets (get client path :text (option "--text" options)))
         (output (option "--output" options))
         (local (or output path))
         (start (- (length local) (length (last-name local)))))
    (if (equal output "-")
        (progn (write-string (text octets)) (finish-output))
        (write-file local (join (subseq local 0 start) "." (subseq local start) ".part") octets))
    (length octets)))

(defun put-one (client local options)
  "Puts a file, which is read whole first; - is the standard input."
  (let ((octets (if (string= local "-")
                    (octets (loop for char = (read-char *standard-input* nil)
                                  while char collect char))
                    (file-octets local))))
    (when (> (length octets) +most-file+)
      (fail 'unfit "more than " (decimal +most-file+) " bytes"))
    (put client (option "--as" options (last-name local)) octets :text (option "--text" options))
    (length octets)))

(defun copy-files (client names copy options)
  "Copies each file, tells what went wrong, and gives the status of the run."
  (let ((status 0))
    (flet ((went-wrong (worse &rest strings)
             (setf status (if (= status 1) 1 worse))
             (tell (apply #'join strings))))
      (loop for (name . others) on names
            do (handler-case
                   (let ((size (funcall copy client name options)))
                     (when (and (not (option "--quiet" options))
                                (interactive-stream-p *error-output*))
                       (format *error-output* "~a ~d bytes~%" name size)))
                 (refused (condition) (went-wrong 3 name ": " (error-text condition)))
                 (unfit (condition) (went-wrong 3 name " has " (error-text condition)))
                 (chaosnet-error (condition)
                   (went-wrong 3 name ": " (error-text condition))
                   (dolist (other others) (went-wrong 3 other ": not tried"))
                   (return))
                 ((or file-error stream-error) (condition)
                   (went-wrong 1 "can't " (if (eq copy 'get-one) "write " "open ") name ": "
                               (princ-to-string condition))))))
    status))

(defun run-copies (copy options words)
  "GET-ONE or PUT-ONE of all files that WORDS name."
  (destructuring-bind (&optional address place server &rest names) words
    (unless names (expected (format nil "~{~a~^ ~}" words) "ADDRESS UDP SERVER and a file"))
    (let* ((output (option "--output" options)) (as (option "--as" options))
           (login (option "--login" options "CHAOSD"))
           (*patience* (* 1000 (number-word (option "--timeout" options "15") 1 3600 "1 to 3600")))
           (paths (cond (as (list as))
                        ((eq copy 'get-one) names)
                        (t (mapcar #'last-name (substitute "" "-" names :test #'string=))))))
      (unless (name-p login 1 16) (expected login "1 to 16 letters and digits"))
      (when (and (or as output) (rest names)) (expected (or as output) "one file"))
      (dolist (path paths)
        (unless (and (path-p path) (= 1 (count path paths :test #'string=)))
          (expected path "a path, each once")))
      (let ((client (apply #'open-client :address (address-word address) :place place
                                         :server server :login login (host-options options 64))))
        (unwind-protect (copy-files client names copy options)
          (close-client client))))))

(defun run-serve (options words)
  (destructuring-bind (&optional address place folder &rest peers) words
    (unless folder (expected (format nil "~{~a~^ ~}" words) "ADDRESS UDP FOLDER"))
    (let ((turns (option "--turns" options)))
      (apply #'serve :address (address-word address) :place place :peers peers
                     :folder (join (string-right-trim "/" folder) "/")
                     :turns (and turns (number-word turns 0 1000000000 "0 to 1000000000"))
                     :quiet (option "--quiet" options)
                     (host-options options 13))
      0)))

(defun main (words)
  "Runs a line of the shell, and gives its status."
  (let ((subcommand (assoc (first words) *options* :test #'equal)))
    (handler-case
        (cond ((intersection words '("--help" "-h" "help") :test #'string=)
               (prog1 0 (write-string *usage*)))
              ((null subcommand) (expected (or (first words) "") "serve, get or put; --help tells"))
              (t
               (multiple-value-bind (options others) (parse-line subcommand (rest words))
                 (cond ((string= (first words) "serve") (run-serve options others))
                       ((string= (first words) "get") (run-copies 'get-one options others))
                       (t (run-copies 'put-one options others))))))
      (bad-word (condition)
        (format *error-output* "error: ~a~%" condition)
        2)
      ((or chaosnet-error file-error stream-error) (condition)
        (tell (princ-to-string condition))
        1))))
