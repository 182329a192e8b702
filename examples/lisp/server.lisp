;;;; The server's end of FILE: sessions, and a folder as their store. docs/FILE.md.

(in-package :chaosnet)

(defstruct session
  folder                                ; the name of the folder, with a slash at its end
  (name nil)                            ; of the user
  (commands 0)                          ; how many were obeyed
  (handles '()))                        ; (name . handle) of each

(defstruct handle
  path writes                           ; does it write?
  octets (place 0)                      ; of one that reads
  (parts '()) (count 0))                ; of one that writes, the last part first

(defparameter *error-texts*
  '(("SYN" . "Bad command syntax.") ("UKC" . "Unknown command.") ("NLI" . "Not logged in.")
    ("ILP" . "Illegal path.") ("HIU" . "Handle in use.") ("NOH" . "No such handle.")
    ("WRK" . "Wrong kind of handle.") ("NMH" . "Too many handles.") ("TBG" . "File too big.")
    ("FNF" . "No such file.") ("FAE" . "File exists.") ("STF" . "Store fault.")))

(define-condition command-error (error) ((code :initarg :code :reader error-code)))
(defun need (true code)
  "Refuses the command with this error, unless TRUE."
  (unless true (error 'command-error :code code)))

;;; The store: each path is a file of that name

(defun stored (session path) (join (session-folder session) path))
(defmacro with-faults (&body body)
  `(handler-case (progn ,@body)
     ((or file-error stream-error) () (need nil "STF"))))

(defun need-file (name)
  (need (kind-of-file name) "FNF")
  (need (eq :file (kind-of-file name)) "STF"))

(defun store-read (name)
  (need-file name)
  (let ((octets (with-faults (file-octets name))))
    (need (<= (length octets) +most-file+) "TBG")
    octets))

;;; The commands. Each makes its checks in order, and gives what the reply tells.

(defun behind (front string)
  "What follows FRONT in STRING, which has to begin so."
  (need (begins-p front string) "SYN")
  (subseq string (length front)))

(defun legal (session path)
  "The name of the file that has this path."
  (need (path-p path) "ILP")
  (stored session path))

(defun find-handle (session name)
  (or (cdr (assoc name (session-handles session) :test #'string=)) (need nil "NOH")))

(defun log-in (session rest)
  (let ((user (behind " " rest)))
    (need (name-p user 1 16) "SYN")
    (join "LOGIN " (setf (session-name session) user))))

(defun open-handle (session rest name)
  (let* ((writes (begins-p (line " WRITE") rest))
         (path (legal session (behind (line (if writes " WRITE" " READ")) rest))))
    (need (not (assoc name (session-handles session) :test #'string=)) "HIU")
    (need (< (length (session-handles session)) 8) "NMH")
    (let ((octets (if writes (make-octets 0) (store-read path))))
      (push (cons name (make-handle :path path :writes writes :octets octets))
            (session-handles session))
      (join "OPEN " (decimal (length octets))))))

(defun read-handle (session rest name)
  (need (string= rest "") "SYN")
  (let* ((handle (find-handle session name))
         (place (handle-place handle))
         (end (min (length (handle-octets handle)) (+ place +most-octets+))))
    (need (not (handle-writes handle)) "WRK")
    (setf (handle-place handle) end)
    (if (= place end)
        "EOF"
        (join (line "READ") (text (subseq (handle-octets handle) place end))))))

(defun write-handle (session rest name)
  (let ((part (octets (behind (line) rest))))
    (need (<= (length part) +most-octets+) "SYN")
    (let ((handle (find-handle session name)))
      (need (handle-writes handle) "WRK")
      (need (<= (+ (handle-count handle) (length part)) +most-file+) "TBG")
      (push part (handle-parts handle))
      (join "WRITE " (decimal (incf (handle-count handle) (length part)))))))

(defun written (handle)
  "The octets of all parts that were written."
  (let* ((end (handle-count handle))
         (octets (make-octets end)))
    (dolist (part (handle-parts handle) octets)
      (replace octets part :start1 (decf end (length part))))))

(defun close-handle (session rest name)
  (need (string= rest "") "SYN")
  (let* ((handle (find-handle session name))
         (path (handle-path handle))
         (octets (if (handle-writes handle) (written handle) (handle-octets handle))))
    (when (handle-writes handle)
      (with-faults (write-file path (stored session ".new") octets)))
    (setf (session-handles session) (remove handle (session-handles session) :key #'cdr))
    (join "CLOSE " (decimal (length octets)))))

(defun rename-path (session rest)
  (let* ((paths (behind (line) rest))
         (end (or (position +return+ paths) (need nil "SYN")))
         (path (legal session (subseq paths 0 end)))
         (new (legal session (subseq paths (1+ end)))))
    (need-file path)
    (need (not (kind-of-file new)) "FAE")
    (with-faults (move-file path new))
    "RENAME"))

(defun delete-path (session rest)
  (let ((path (legal session (behind (line) rest))))
    (need-file path)
    (with-faults (delete-file (native path)))
    "DELETE"))

(defparameter *commands*
  '(("LOGIN" log-in nil) ("RENAME" rename-path nil) ("DELETE" delete-path nil)
    ("OPEN" open-handle t) ("READ" read-handle t) ("WRITE" write-handle t)
    ("CLOSE" close-handle t))
  "Each word, what carries it out, and whether it names a handle.")

(defun command-parts (command)
  "The tid and the handle, which are empty where they can't be read, the word, and the rest."
  (let* ((first (position #\Space command))
         (second (and first (position #\Space command :start (1+ first))))
         (tid (subseq command 0 (or first 0)))
         (handle (if second (subseq command (1+ first) second) "")))
    (if (and second (name-p tid 1 8) (name-p handle 0 8))
        (let ((end (or (position-if (lambda (char) (find char (list #\Space +return+)))
                                    command :start (1+ second))
                       (length command))))
          (values tid handle (subseq command (1+ second) end) (subseq command end)))
        (values "" "" "" ""))))

(defun carry-out (session handle word rest)
  "What the reply to a command tells, where it can be carried out."
  (destructuring-bind (&optional known does has-handle) (assoc word *commands* :test #'string=)
    (need (string/= word "") "SYN")
    (need known "UKC")
    (need (or (session-name session) (string= word "LOGIN")) "NLI")
    (need (eq has-handle (plusp (length handle))) "SYN")
    (if has-handle (funcall does session rest handle) (funcall does session rest))))

(defun obey (session command)
  "Carries out one command, and gives the reply to it."
  (multiple-value-bind (tid handle word rest) (command-parts command)
    (incf (session-commands session))
    (join tid " " handle " "
          (handler-case (carry-out session handle word rest)
            (command-error (condition)
              (let ((code (error-code condition)))
                (join "ERROR " code " " (cdr (assoc code *error-texts* :test #'string=)))))))))

(defun obey-all (conn)
  "Replies to the commands that came, while there is room; true where the user is done. What stands
behind an EOF is dropped."
  (loop
    (let ((packet (next-item conn)))
      (cond ((null packet) (return nil))
            ((= (pkt-opcode packet) +eof+) (return (zerop (outstanding conn))))
            ((not (may-write-p conn)) (return nil))
            (t (read-item conn)
               (write-item conn +data+
                           (octets (obey (conn-user conn) (text (pkt-data packet))))))))))

(defun tell (&rest strings)
  (write-line (apply #'join "chaosd: " strings) *error-output*)
  (finish-output *error-output*))

(defun octal (word) (format nil "~6,'0o" word))

(defun serve-connection (conn folder quiet)
  "Does what can be done now for the user at the other end."
  (let ((session (conn-user conn))
        (index (octal (conn-peer-index conn)))
        (peer (octal (conn-peer conn))))
    (flet ((end (why)
             (unless (or quiet (null session))
               (tell "connection " index " of host " peer " ends: "
                     (or (session-name session) "nobody") ", "
                     (format nil "~d command~:p, " (session-commands session)) why))
             (close-connection conn)))
      (case (conn-state conn)
        (:rfc-received
         (unless quiet (tell "host " peer " opens connection " index))
         (setf (conn-user conn) (make-session :folder folder))
         (accept conn))
        (:open (when (obey-all conn) (read-item conn) (end "done")))
        (:host-down (end "its host is down"))
        (t (end "closed by its host"))))))

(defun serve (&key address place folder peers (window 13) (carriage 1) (contact "FILE") bridge
                turns quiet)
  "Serves the files of FOLDER, a name with a slash at its end, to all PEERS, as
\"402=127.0.0.1:9002\": for so many TURNS, or for ever."
  (let* ((link (open-link (place-word place) (peer-words peers)))
         (host (make-host :address address :link link :window window :version carriage
                          :bridge bridge :contacts (list contact))))
    (unless quiet
      (tell "host " (octal address) " serves " (string-right-trim "/" folder) " at " place))
    (loop for turn from 0
          until (and turns (>= turn turns))
          do (turn host)
             (dolist (conn (host-connections host))
               (serve-connection conn folder quiet)))
    (close-link link)))
